/* The near side: the functions of desk.h for this machine, each of which hands its call to the far side. A thread has a far
 * side of its own. */
#define _GNU_SOURCE
#include "bridge.h"

#include <fcntl.h>
#include <stdio.h>
#include <stdlib.h>
#include <unistd.h>

static _Thread_local FILE *to, *from;

static void fail(const char *what) {
    fprintf(stderr, "bridge: %s\n", what);
    abort();
}

/* Starts the far side, at the thread's first call. */
static void start(void) {
    int there[2], back[2];
    if (pipe2(there, O_CLOEXEC) != 0 || pipe2(back, O_CLOEXEC) != 0)
        fail("no pipe");
    pid_t child = fork();
    if (child < 0)
        fail("no process");
    if (child == 0) {
        dup2(there[0], 0);
        dup2(back[1], 1);
        execl("/bin/sh", "sh", "-c", FAR_COMMAND, (char *)NULL);
        _exit(127);
    }
    close(there[0]);
    close(back[1]);
    to = fdopen(there[1], "wb");
    from = fdopen(back[0], "rb");
    if (to == NULL || from == NULL)
        fail("no stream");
}

static void put(const void *bytes, size_t size) {
    if (size > 0 && fwrite(bytes, 1, size, to) != size)
        fail("the far side takes no call");
}

static void put_list(const void *list, size_t size) {
    uint64_t bytes = size;
    put(&bytes, sizeof bytes);
    put(list, size);
}

static void get(void *bytes, size_t size) {
    if (size > 0 && fread(bytes, 1, size, from) != size)
        fail("the far side gives no answer");
}

static void call(uint32_t number, const Desk *desk) {
    if (to == NULL)
        start();
    put(&number, sizeof number);
    if (desk != NULL)
        put(desk, sizeof *desk);
}

static void answer(void *bytes, size_t size) {
    fflush(to);
    get(bytes, size);
}

DeskAnswer desk_open(const uint32_t *list, size_t length, uint64_t start, uint32_t charge) {
    DeskAnswer opened;
    call(CALL_OPEN, NULL);
    put_list(list, length * sizeof *list);
    put(&start, sizeof start);
    put(&charge, sizeof charge);
    answer(&opened, sizeof opened);
    return opened;
}

DeskAnswer desk_open_shared(const uint32_t *list, size_t length, uint64_t start, uint32_t charge, uint32_t p, uint32_t q) {
    DeskAnswer opened;
    call(CALL_OPEN_SHARED, NULL);
    put_list(list, length * sizeof *list);
    put(&start, sizeof start);
    put(&charge, sizeof charge);
    put(&p, sizeof p);
    put(&q, sizeof q);
    answer(&opened, sizeof opened);
    return opened;
}

DeskAnswer desk_ask(Desk desk, uint32_t number, uint32_t work, uint32_t lead) {
    DeskAnswer asked;
    call(CALL_ASK, &desk);
    put(&number, sizeof number);
    put(&work, sizeof work);
    put(&lead, sizeof lead);
    answer(&asked, sizeof asked);
    return asked;
}

DeskAnswer desk_ask_mesh(Desk desk, const uint8_t *head, size_t lent, uint64_t size, uint32_t number, uint32_t lead) {
    DeskAnswer asked;
    call(CALL_ASK_MESH, &desk);
    put_list(head, lent);
    put(&size, sizeof size);
    put(&number, sizeof number);
    put(&lead, sizeof lead);
    answer(&asked, sizeof asked);
    return asked;
}

DeskAnswer desk_ask_undated(Desk desk, uint32_t number, uint32_t work) {
    DeskAnswer asked;
    call(CALL_ASK_UNDATED, &desk);
    put(&number, sizeof number);
    put(&work, sizeof work);
    answer(&asked, sizeof asked);
    return asked;
}

DeskReason desk_why(Desk desk, uint32_t number, uint32_t work, uint32_t lead) {
    DeskReason reason;
    call(CALL_WHY, &desk);
    put(&number, sizeof number);
    put(&work, sizeof work);
    put(&lead, sizeof lead);
    answer(&reason, sizeof reason);
    return reason;
}

DeskStepped desk_step(Desk desk) {
    DeskStepped stepped;
    call(CALL_STEP, &desk);
    answer(&stepped, sizeof stepped);
    return stepped;
}

static DeskAnswer with_number(uint32_t which, const Desk *desk, uint32_t number) {
    DeskAnswer given;
    call(which, desk);
    put(&number, sizeof number);
    answer(&given, sizeof given);
    return given;
}

DeskAnswer desk_end(Desk desk, uint32_t number) {
    return with_number(CALL_END, &desk, number);
}

DeskAnswer desk_rest(Desk desk, uint32_t position) {
    return with_number(CALL_REST, &desk, position);
}

DeskListed desk_list(Desk desk, uint64_t *buffer, size_t length) {
    DeskListed listed;
    call(CALL_LIST, &desk);
    put_list(buffer, length * sizeof *buffer);
    answer(&listed, sizeof listed);
    get(buffer, length * sizeof *buffer);
    return listed;
}

DeskLabel desk_label(Desk desk, const uint8_t *jobs, size_t jobs_length, const uint8_t *feeds, size_t feeds_length) {
    DeskLabel label;
    call(CALL_LABEL, &desk);
    put_list(jobs, jobs_length);
    put_list(feeds, feeds_length);
    answer(&label, sizeof label);
    return label;
}

DeskBegun desk_wave_begin(Desk desk) {
    DeskBegun begun;
    call(CALL_WAVE_BEGIN, &desk);
    answer(&begun, sizeof begun);
    return begun;
}

DeskWaved desk_wave(Desk desk, DeskCursor cursor, uint32_t steps, uint8_t *buffer, size_t length) {
    DeskWaved waved;
    call(CALL_WAVE, &desk);
    put(&cursor, sizeof cursor);
    put(&steps, sizeof steps);
    put_list(buffer, length);
    answer(&waved, sizeof waved);
    get(buffer, length);
    return waved;
}

DeskClosed desk_wave_close(DeskCursor cursor, uint8_t *buffer, size_t length) {
    DeskClosed closed;
    call(CALL_WAVE_CLOSE, NULL);
    put(&cursor, sizeof cursor);
    put_list(buffer, length);
    answer(&closed, sizeof closed);
    get(buffer, length);
    return closed;
}

DeskRead desk_wave_read(const uint8_t *text, size_t length) {
    DeskRead read;
    call(CALL_WAVE_READ, NULL);
    put_list(text, length);
    answer(&read, sizeof read);
    return read;
}

DeskStretch desk_wave_stretch(const uint8_t *text, size_t length, DeskReading reading) {
    DeskStretch stretch;
    call(CALL_WAVE_STRETCH, NULL);
    put_list(text, length);
    put(&reading, sizeof reading);
    answer(&stretch, sizeof stretch);
    return stretch;
}
