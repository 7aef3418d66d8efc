/* A desk from C: opens with two feeds, asks and asks why, rests, steps and lists, asks with a mesh file, opens under a
 * charge, opens with layers that are due before the next, opens with a share and asks with no date, and writes a run as a
 * waveform and reads it back. */
#include "desk.h"

#include <stdio.h>
#include <string.h>

enum { TWO_FEEDS = 2 * DESK_NUMBERS_A_FEED };

/* Two printers: one wants 1 tick in 4, one 2 in 6, each layer by the time that the next one comes. */
static const uint32_t by_the_next[TWO_FEEDS] = {4, 1, 0, 4, 6, 2, 0, 6};

/* The same two, where a layer is due 1 tick after it came, and 3. */
static const uint32_t soon[TWO_FEEDS] = {4, 1, 0, 1, 6, 2, 0, 3};

static Desk opened(const uint32_t *feeds, uint32_t charge) {
    DeskAnswer answer = desk_open(feeds, TWO_FEEDS, 0, charge);
    printf("open at charge %u: %u\n", charge, answer.refusal);
    return answer.desk;
}

static Desk told(uint32_t number, DeskAnswer answer) {
    if (answer.refusal == DESK_YES)
        printf("job %u: yes\n", number);
    else
        printf("job %u: no %u\n", number, answer.refusal);
    return answer.desk;
}

static Desk asked(Desk desk, uint32_t number, uint32_t work, uint32_t lead) {
    return told(number, desk_ask(desk, number, work, lead));
}

static void asked_why(Desk desk, uint32_t number, uint32_t work, uint32_t lead) {
    DeskReason why = desk_why(desk, number, work, lead);
    if (why.refusal == DESK_YES)
        printf("why job %u: yes, margin %lld at %llu\n", number, (long long)why.margin, (unsigned long long)why.at);
    else
        printf("why job %u: no %u, by %llu jobs owe %llu, feeds %llu, it %llu: margin %lld\n", number, why.refusal,
               (unsigned long long)why.at, (unsigned long long)why.jobs, (unsigned long long)why.feeds,
               (unsigned long long)why.job, (long long)why.margin);
}

/* The front of a file of 12,345 triangles (0x3039), behind an empty header. */
static Desk asked_with_mesh(Desk desk, uint64_t size, uint32_t number, uint32_t lead) {
    static const uint8_t head[DESK_BYTES_OF_FRONT] = {[80] = 0x39, [81] = 0x30};
    return told(number, desk_ask_mesh(desk, head, sizeof head, size, number, lead));
}

static Desk asked_undated(Desk desk, uint32_t number, uint32_t work) {
    return told(number, desk_ask_undated(desk, number, work));
}

static Desk stepped(Desk desk) {
    static const char *const kinds[] = {"idle", "job", "feed"};
    DeskStepped step = desk_step(desk);
    if (step.refusal != DESK_YES)
        printf("no step: %u\n", step.refusal);
    else if (step.kind == DESK_IDLE)
        printf("tick %llu: idle\n", (unsigned long long)desk.clock);
    else
        printf("tick %llu: %s %u, owes %llu\n", (unsigned long long)desk.clock, kinds[step.kind], step.number,
               (unsigned long long)step.owes);
    return step.desk;
}

static void listed(Desk desk) {
    uint64_t buffer[DESK_NUMBERS_A_JOB * DESK_MOST_JOBS];
    DeskListed list = desk_list(desk, buffer, DESK_NUMBERS_A_JOB * DESK_MOST_JOBS);
    for (uint32_t i = 0; i < list.count; i++) {
        const uint64_t *job = buffer + DESK_NUMBERS_A_JOB * i;
        printf("live: job %llu owes %llu by %llu, figure %llu\n", (unsigned long long)job[0],
               (unsigned long long)job[1], (unsigned long long)job[2], (unsigned long long)job[3]);
    }
}

static void labelled(Desk desk) {
    static const uint8_t jobs[] = "\0\0\0\1pelvis  \0\0\0\7skull   ";
    static const uint8_t feeds[] = "printer1printer2";
    DeskLabel label = desk_label(desk, jobs, sizeof jobs - 1, feeds, sizeof feeds - 1);
    const uint8_t *list = label.list == DESK_JOB_LABELS ? jobs : feeds;
    printf("next: \"%.*s\"\n", (int)label.length, (const char *)list + label.from);
}

/* A waveform as it grows. */
typedef struct Text {
    size_t length;
    uint8_t bytes[1024];
} Text;

static void joined(Text *text, const uint8_t *part, size_t bytes) {
    memcpy(text->bytes + text->length, part, bytes);
    text->length += bytes;
}

/* In the smallest parts that always get on: each has one whole line or more, the last has none. */
static Text waved(Desk desk, uint32_t steps) {
    Text text = {0};
    uint8_t part[DESK_BYTES_A_LINE];
    DeskCursor cursor = desk_wave_begin(desk).cursor;
    DeskWaved wave;
    do {
        wave = desk_wave(desk, cursor, steps, part, sizeof part);
        joined(&text, part, wave.bytes);
        desk = wave.desk;
        cursor = wave.cursor;
        steps -= wave.steps;
    } while (wave.bytes > 0);
    DeskClosed closed;
    do {
        closed = desk_wave_close(cursor, part, sizeof part);
        joined(&text, part, closed.bytes);
        cursor = closed.cursor;
    } while (closed.bytes > 0);
    return text;
}

static void read_back(const uint8_t *text, size_t length) {
    static const char *const kinds[] = {"idle", "job", "feed"};
    DeskRead read = desk_wave_read(text, length);
    if (read.refusal != DESK_YES) {
        printf("no waveform: %u, line %zu\n", read.refusal, read.line);
        return;
    }
    printf("waveform from %llu to %llu, %zu stretches\n", (unsigned long long)read.start,
           (unsigned long long)read.end, read.stretches);
    DeskReading reading = {0};
    for (size_t i = 0; i < read.stretches; i++) {
        DeskStretch stretch = desk_wave_stretch(text, length, reading);
        printf("ticks %llu to %llu: %s %u\n", (unsigned long long)stretch.from, (unsigned long long)stretch.to,
               kinds[stretch.kind], stretch.number);
        reading = stretch.reading;
    }
}

int main(void) {
    Desk desk = opened(by_the_next, 0);
    desk = asked(desk, 1, 3, 6);
    desk = asked(desk, 2, 1, 6);
    asked_why(desk, 2, 1, 6);
    asked_why(desk, 7, 1, 12);
    desk = asked(desk, 7, 1, 12);
    listed(desk);
    labelled(desk);
    for (int i = 0; i < 4; i++)
        desk = stepped(desk);
    labelled(desk);
    DeskAnswer rested = desk_rest(desk, 2);
    printf("rest feed 2: %u\n", rested.refusal);
    desk = rested.desk;
    desk = asked(desk, 2, 1, 6);
    DeskAnswer ended = desk_end(desk, 7);
    printf("end job 7: %u\n", ended.refusal);
    desk = ended.desk;
    listed(desk);
    for (int i = 0; i < 4; i++)
        desk = stepped(desk);
    desk = asked_with_mesh(desk, 617284, 3, 40); /* its last triangle is missing */
    desk = asked_with_mesh(desk, 617334, 3, 40);
    desk = asked(desk, 4, 2, 40); /* due together with job 3: both show what the two of them owe */
    listed(desk);
    desk.clock = desk.clock + 1000000;
    desk.table.count = DESK_MOST_JOBS + 1;
    desk = stepped(desk);
    asked_why(opened(by_the_next, 1), 1, 3, 6); /* each piece and the job owe 1 more: what fitted does not */
    opened(by_the_next, DESK_HIGHEST_CHARGE + 1);
    asked_why(opened(soon, 0), 1, 3, 6); /* the first one's second layer is due by then too: what fitted does not */
    asked_undated(opened(by_the_next, 0), 1, 3); /* an opening that carries no share */
    DeskAnswer shared = desk_open_shared(by_the_next, TWO_FEEDS, 0, 0, 5, 12); /* all that the two printers leave */
    printf("open with share 5/12: %u\n", shared.refusal);
    desk = asked_undated(shared.desk, 1, 3);
    desk = asked_undated(desk, 2, 2); /* its time begins where that of job 1 ends */
    listed(desk);
    Text text = waved(asked(opened(by_the_next, 0), 1, 3, 6), 6);
    fwrite(text.bytes, 1, text.length, stdout);
    read_back(text.bytes, text.length);
    read_back(text.bytes, text.length - 1); /* the newline of its last line is missing */
    return 0;
}
