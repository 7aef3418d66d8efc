/* The far side: linked with the library, it answers the calls that come in on standard input. */
#include "bridge.h"

#include <stdio.h>
#include <stdlib.h>

static void get(void *to, size_t size) {
    if (size > 0 && fread(to, 1, size, stdin) != size)
        exit(0);
}

static void put(const void *from, size_t size) {
    if (size > 0 && fwrite(from, 1, size, stdout) != size)
        exit(1);
}

/* A list of the length that was lent, and no byte more, so that a read past its end is not a read of the list. */
static void *get_list(size_t *size) {
    uint64_t bytes;
    get(&bytes, sizeof bytes);
    *size = bytes;
    void *list = malloc(bytes > 0 ? bytes : 1);
    if (list == NULL)
        exit(1);
    get(list, bytes);
    return list;
}

static uint32_t get_number(void) {
    uint32_t number;
    get(&number, sizeof number);
    return number;
}

static void opening(void) {
    size_t size;
    uint32_t *list = get_list(&size);
    uint64_t start;
    get(&start, sizeof start);
    DeskAnswer answer = desk_open(list, size / sizeof *list, start, get_number());
    put(&answer, sizeof answer);
    free(list);
}

static void opening_with_share(void) {
    size_t size;
    uint32_t *list = get_list(&size);
    uint64_t start;
    get(&start, sizeof start);
    uint32_t charge = get_number(), p = get_number(), q = get_number();
    DeskAnswer answer = desk_open_shared(list, size / sizeof *list, start, charge, p, q);
    put(&answer, sizeof answer);
    free(list);
}

static void asking(Desk desk) {
    uint32_t number = get_number(), work = get_number(), lead = get_number();
    DeskAnswer answer = desk_ask(desk, number, work, lead);
    put(&answer, sizeof answer);
}

static void asking_with_mesh(Desk desk) {
    size_t lent;
    uint8_t *head = get_list(&lent);
    uint64_t size;
    get(&size, sizeof size);
    uint32_t number = get_number(), lead = get_number();
    DeskAnswer answer = desk_ask_mesh(desk, head, lent, size, number, lead);
    put(&answer, sizeof answer);
    free(head);
}

static void asking_undated(Desk desk) {
    uint32_t number = get_number(), work = get_number();
    DeskAnswer answer = desk_ask_undated(desk, number, work);
    put(&answer, sizeof answer);
}

static void telling_why(Desk desk) {
    uint32_t number = get_number(), work = get_number(), lead = get_number();
    DeskReason answer = desk_why(desk, number, work, lead);
    put(&answer, sizeof answer);
}

static void stepping(Desk desk) {
    DeskStepped answer = desk_step(desk);
    put(&answer, sizeof answer);
}

static void listing(Desk desk) {
    size_t size;
    uint64_t *buffer = get_list(&size);
    DeskListed answer = desk_list(desk, buffer, size / sizeof *buffer);
    put(&answer, sizeof answer);
    put(buffer, size);
    free(buffer);
}

static void labelling(Desk desk) {
    size_t jobs_size, feeds_size;
    uint8_t *jobs = get_list(&jobs_size), *feeds = get_list(&feeds_size);
    DeskLabel answer = desk_label(desk, jobs, jobs_size, feeds, feeds_size);
    put(&answer, sizeof answer);
    free(jobs);
    free(feeds);
}

static void beginning(Desk desk) {
    DeskBegun answer = desk_wave_begin(desk);
    put(&answer, sizeof answer);
}

static void waving(Desk desk) {
    DeskCursor cursor;
    get(&cursor, sizeof cursor);
    uint32_t steps = get_number();
    size_t size;
    uint8_t *buffer = get_list(&size);
    DeskWaved answer = desk_wave(desk, cursor, steps, buffer, size);
    put(&answer, sizeof answer);
    put(buffer, size);
    free(buffer);
}

static void closing(void) {
    DeskCursor cursor;
    get(&cursor, sizeof cursor);
    size_t size;
    uint8_t *buffer = get_list(&size);
    DeskClosed answer = desk_wave_close(cursor, buffer, size);
    put(&answer, sizeof answer);
    put(buffer, size);
    free(buffer);
}

static void reading(void) {
    size_t size;
    uint8_t *text = get_list(&size);
    DeskRead answer = desk_wave_read(text, size);
    put(&answer, sizeof answer);
    free(text);
}

static void reading_on(void) {
    size_t size;
    uint8_t *text = get_list(&size);
    DeskReading reading;
    get(&reading, sizeof reading);
    DeskStretch answer = desk_wave_stretch(text, size, reading);
    put(&answer, sizeof answer);
    free(text);
}

/* Whether a state comes with the call. */
static int is_of_a_desk(uint32_t call) {
    switch (call) {
    case CALL_OPEN:
    case CALL_OPEN_SHARED:
    case CALL_WAVE_CLOSE:
    case CALL_WAVE_READ:
    case CALL_WAVE_STRETCH: return 0;
    default: return 1;
    }
}

int main(void) {
    for (;;) {
        uint32_t call = get_number();
        Desk desk;
        DeskAnswer answer;
        if (is_of_a_desk(call))
            get(&desk, sizeof desk);
        switch (call) {
        case CALL_OPEN: opening(); break;
        case CALL_ASK: asking(desk); break;
        case CALL_STEP: stepping(desk); break;
        case CALL_END: answer = desk_end(desk, get_number()); put(&answer, sizeof answer); break;
        case CALL_REST: answer = desk_rest(desk, get_number()); put(&answer, sizeof answer); break;
        case CALL_LIST: listing(desk); break;
        case CALL_LABEL: labelling(desk); break;
        case CALL_ASK_MESH: asking_with_mesh(desk); break;
        case CALL_WHY: telling_why(desk); break;
        case CALL_OPEN_SHARED: opening_with_share(); break;
        case CALL_ASK_UNDATED: asking_undated(desk); break;
        case CALL_WAVE_BEGIN: beginning(desk); break;
        case CALL_WAVE: waving(desk); break;
        case CALL_WAVE_CLOSE: closing(); break;
        case CALL_WAVE_READ: reading(); break;
        case CALL_WAVE_STRETCH: reading_on(); break;
        default: exit(1);
        }
        fflush(stdout);
    }
}
