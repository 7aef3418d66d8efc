/* The export desk for C and C++: every call of the library `desk_c` (libdesk_c.a).
 *
 * A state is a plain value: each call takes one and hands the next one back. A refused call hands back the state that it
 * was given. Any state may be handed in, also one that no call made: one that is not in order is refused with 13.
 * Lists are lent for the length of the call; a list of length 0 still needs a place that is not null.
 *
 * Nothing is kept between calls and there is no global state: any number of threads may call at once, each with its own
 * state. A call takes up to 33 KB of stack, the states that go in and come back by value among it, and no other memory.
 *
 * Beside each call stand its refusals, in the order in which they are looked for: the first that holds is given. */
#ifndef DESK_H
#define DESK_H

#include <stddef.h>
#include <stdint.h>

#ifdef __cplusplus
extern "C" {
#endif

/* One more with every change of a struct, a call or a number below, or of what makes a state one in order. */
#define DESK_VERSION 7

/* An instant is a reading of the clock, a whole number of ticks; this is the last one, 2 to the 40th. */
#define DESK_LAST_INSTANT UINT64_C(1099511627776)

/* The other limits. Lengths are in ticks; each goes from 1, but for an offset, which goes from 0 to its period less 1, and
 * a charge, which goes from 0. A feed's deadline length goes to its period. A work is within its limit without the
 * charge. A share p/q is no length: its p goes from 1 to its q. */
enum {
    DESK_MOST_JOBS = 64,          /* live at once */
    DESK_MOST_FEEDS = 16,
    DESK_LONGEST_WORK = 65536,    /* of a job */
    DESK_LONGEST_LEAD = 65536,    /* of a job */
    DESK_LONGEST_PERIOD = 40320,  /* of a feed; its work is within the same limit */
    DESK_LONGEST_ROUND = 40320,   /* the least common multiple of the periods, 1 with no feeds */
    DESK_HIGHEST_CHARGE = 16,     /* what each job and each piece owes beside its work */
    DESK_HIGHEST_Q = 1000         /* of a share p/q */
};

/* How many numbers or bytes there are of each thing in a lent list. */
enum {
    DESK_NUMBERS_A_FEED = 4,      /* in the list of an opening: period, work, offset, deadline length */
    DESK_NUMBERS_A_JOB = 4,       /* in the buffer of a list: number, owed, deadline, figure */
    DESK_BYTES_OF_FRONT = 84,     /* of a mesh file: its header of 80 and its triangle count */
    DESK_BYTES_A_JOB_LABEL = 12,  /* the job's number, big-endian in 4, and its label in 8 */
    DESK_BYTES_A_FEED_LABEL = 8,
    DESK_BYTES_A_LINE = 36        /* of a waveform, the longest with its newline: a buffer of so many always gets on */
};

/* What an answer's `refusal` says. */
enum {
    DESK_YES = 0,
    DESK_NUMBER_ZERO = 1,         /* job number 0 */
    DESK_OUTSIDE = 2,             /* a length or offset outside its limits, a feed's deadline length too */
    DESK_PAST_LAST = 3,           /* the clock, or the deadline, would lie past the last instant */
    DESK_NUMBER_LIVE = 4,         /* the number is live */
    DESK_FULL = 5,                /* 64 jobs are live */
    DESK_DOES_NOT_FIT = 6,        /* with it, something promised could not be done in time */
    DESK_NOTHING_THERE = 7,       /* no such live job; no such feed, or its current piece owes nothing or hasn't come */
    DESK_TOO_MANY_FEEDS = 8,      /* more than 16 feeds */
    DESK_ROUND_TOO_LONG = 9,      /* round above 40,320 */
    DESK_TOO_MUCH_LOAD = 10,      /* in some stretch of ticks the feeds alone, released together, charges and all, want more
                                   * than it has */
    DESK_SHORT_BUFFER = 11,       /* buffer shorter than four numbers a live job, or than the next line of a waveform */
    DESK_NOT_WHOLE_FEEDS = 12,    /* feed list length not a multiple of 4 */
    DESK_NOT_IN_ORDER = 13,       /* state, cursor or reading not in order */
    DESK_SHORT_FRONT = 15,        /* fewer than 84 bytes lent of a mesh file */
    DESK_WRONG_LENGTH = 16,       /* a mesh file's length is not 84 and 50 for each of its triangles */
    DESK_NO_TRIANGLES = 17,       /* a mesh without triangles */
    DESK_CHARGE_TOO_HIGH = 18,    /* a charge above 16 */
    DESK_NO_SHARE = 19,           /* a share with p or q zero, p above q or q above 1,000; no share to ask by */
    DESK_NOT_A_WAVEFORM = 20      /* a text that is no waveform of a run; the call tells the line */
};

/* Whom a tick went to. */
enum { DESK_IDLE = 0, DESK_JOB = 1, DESK_FEED = 2 };

/* Which lent list holds a label. */
enum { DESK_JOB_LABELS = 1, DESK_FEED_LABELS = 2 };

/* A feed releases a piece at each instant that leaves the remainder `offset` when divided by `period`. The piece owes
 * `work` ticks and the charge; `lead` is how many ticks after it came a piece is due. `owes` is what the current one still
 * owes, 0 where none has come and from its deadline on. */
typedef struct DeskFeed {
    uint64_t period;
    uint64_t work;
    uint64_t offset;
    uint64_t lead;
    uint64_t owes;
} DeskFeed;

/* The feeds stand at the front, in list order; the places after them are all zero. */
typedef struct DeskFeeds {
    size_t count;
    DeskFeed feeds[DESK_MOST_FEEDS];
} DeskFeeds;

/* A job still owes `owed` ticks, of its work and the charge, before the instant `deadline`. `figure` is what all live jobs
 * due no later still owe together, itself included, so that two that are due together have the same. */
typedef struct DeskJob {
    uint32_t number;
    uint64_t owed;
    uint64_t deadline;
    uint64_t figure;
} DeskJob;

/* The live jobs stand at the front, earliest deadline first and lower number first on equal ones; the places after them are
 * all zero. So the first is the one that goes before all others, and a list call writes them as they stand. */
typedef struct DeskTable {
    size_t count;
    DeskJob jobs[DESK_MOST_JOBS];
} DeskTable;

/* The share of the processor that exports with no date may count on: `p` ticks of every `q`. Both 0 where the opening
 * carried none. */
typedef struct DeskShare {
    uint32_t p;
    uint32_t q;
} DeskShare;

/* The state of a box. The `charge` is what each job and each piece owes beside its work, as the converter reloads its
 * buffers: once, never again at a switch. `previous` is the deadline of the export with no date that was taken last, 0
 * before the first; it stays when that job has left or was ended. All zero is the empty state: clock 0, charge 0, no feeds,
 * no jobs, no share. */
typedef struct Desk {
    uint64_t clock;
    uint64_t charge;
    DeskFeeds feeds;
    DeskTable table;
    DeskShare share;
    uint64_t previous;
} Desk;

/* The state that a call hands back, and its refusal or DESK_YES. A refused opening hands back the empty state. */
typedef struct DeskAnswer {
    Desk desk;
    uint32_t refusal;
} DeskAnswer;

/* Why a request is refused, or how near it comes to that. `refusal` is what asking would give. For 6, `at` is the
 * earliest instant at which more is owed than there is time; `jobs`, `feeds` and `job` are what the live jobs, the
 * feeds and the new job owe by then, charges and all, and `margin` is the time until then less all of that, below zero.
 * For a request that would be taken, `margin` is the smallest one over all instants after the clock, `at` the earliest
 * instant that has it, and the three parts are 0. For any other refusal all five are 0. Either instant may lie past the
 * clock's last. */
typedef struct DeskReason {
    uint32_t refusal;
    uint64_t at;
    uint64_t jobs;
    uint64_t feeds;
    uint64_t job;
    int64_t margin;
} DeskReason;

/* Whom the tick went to: `number` is the job's number or the feed's position, `owes` what that piece of work still owes
 * after the tick, before any release and before a late piece gives way. Idle, and kind, number and owes 0, where the step
 * is refused. */
typedef struct DeskStepped {
    Desk desk;
    uint32_t refusal;
    uint32_t kind;
    uint32_t number;
    uint64_t owes;
} DeskStepped;

/* How many jobs were written, 0 where the call is refused. */
typedef struct DeskListed {
    uint32_t refusal;
    uint32_t count;
} DeskListed;

/* Which lent list holds the label, from which byte, and how many bytes: DESK_JOB_LABELS, 0 and 0 where there is none. */
typedef struct DeskLabel {
    uint32_t list;
    size_t from;
    size_t length;
} DeskLabel;

/* A run of steps that is being written as a waveform: a run begins at an instant, goes on by the steps that the writing
 * takes itself, and is closed. `clock` is the desk's, `number` and `position` are the values of the two wires, and `since`
 * is the instant of the mark that is due or was written last: since then the same one runs. `heads` is how many of the six
 * lines in front are written. The others are flags, 0 for no and anything else for yes (a call hands back 0 or 1): whether
 * a step was taken, and which of a mark, the job's value and the feed's are due. All zero is the empty cursor, that of a
 * refused begin and of a run that is closed.
 *
 * It is in order at an instant that is its `clock` if `heads` is at most 6, and
 * - where no step was taken: `since` is the clock, both wires are 0, no value is due, and the mark is while `heads` is
 *   below 6;
 * - where one was: `heads` is 6, `since` lies before the clock, not both wires are above 0, `position` is at most 16, the
 *   mark is due only with a value, and anything only if `since` is the instant before the clock. */
typedef struct DeskCursor {
    uint64_t since;
    uint64_t clock;
    uint32_t number;
    uint32_t position;
    uint32_t ran;
    uint32_t heads;
    uint32_t mark;
    uint32_t job;
    uint32_t feed;
} DeskCursor;

/* The cursor of a run that begins, the empty one where that is refused. */
typedef struct DeskBegun {
    DeskCursor cursor;
    uint32_t refusal;
} DeskBegun;

/* State and cursor after so many `steps`, and how many `bytes` were written into the front of the buffer. Refused: both as
 * they were given, no steps and no bytes. */
typedef struct DeskWaved {
    Desk desk;
    DeskCursor cursor;
    uint32_t refusal;
    uint32_t steps;
    size_t bytes;
} DeskWaved;

/* The cursor after so many `bytes`, the empty one once all is written. Refused: as it was given, and no bytes. */
typedef struct DeskClosed {
    DeskCursor cursor;
    uint32_t refusal;
    size_t bytes;
} DeskClosed;

/* What a text tells of a run: its first and its last instant, and how many stretches it has. For 20 `line` is the first
 * line, counted from 1, that no waveform has there, or one past the last where text is missing; all else is 0. */
typedef struct DeskRead {
    uint32_t refusal;
    size_t line;
    uint64_t start;
    uint64_t end;
    size_t stretches;
} DeskRead;

/* How far a text is read, stretch by stretch: `place` bytes, which are `lines` whole lines, up to the mark `at`, where the
 * wires are still at `job` and `feed`. All zero stands in front of the text, and so does any with `place` 0. It is in order
 * for a text if `lines` is at most `place` and `place` at most the text's length. */
typedef struct DeskReading {
    size_t place;
    size_t lines;
    uint64_t at;
    uint32_t job;
    uint32_t feed;
} DeskReading;

/* The ticks from the instant `from` up to `to` all went to one (`kind` and `number` as of a step), and the reading stands
 * behind them. Where the text ends well there are none: `from` and `to` are its last instant, kind and number 0. Refused:
 * the reading as it was given, `line` for 20 as in reading the whole text, all else 0. */
typedef struct DeskStretch {
    DeskReading reading;
    uint32_t refusal;
    size_t line;
    uint64_t from;
    uint64_t to;
    uint32_t kind;
    uint32_t number;
} DeskStretch;

/* The layout, on every processor: the library and whoever calls it have to mean the same bytes. */
#ifdef __cplusplus
#define DESK_HOLDS static_assert
#else
#define DESK_HOLDS _Static_assert
#endif
#define DESK_SIZE(type, bytes) DESK_HOLDS(sizeof(type) == (bytes), "the size of " #type)
#define DESK_PLACE(type, field, at) DESK_HOLDS(offsetof(type, field) == (at), "the place of " #field " in " #type)

DESK_SIZE(size_t, 8);
DESK_SIZE(DeskFeed, 40);
DESK_PLACE(DeskFeed, period, 0);
DESK_PLACE(DeskFeed, work, 8);
DESK_PLACE(DeskFeed, offset, 16);
DESK_PLACE(DeskFeed, lead, 24);
DESK_PLACE(DeskFeed, owes, 32);
DESK_SIZE(DeskFeeds, 648);
DESK_PLACE(DeskFeeds, count, 0);
DESK_PLACE(DeskFeeds, feeds, 8);
DESK_SIZE(DeskJob, 32);
DESK_PLACE(DeskJob, number, 0);
DESK_PLACE(DeskJob, owed, 8);
DESK_PLACE(DeskJob, deadline, 16);
DESK_PLACE(DeskJob, figure, 24);
DESK_SIZE(DeskTable, 2056);
DESK_PLACE(DeskTable, count, 0);
DESK_PLACE(DeskTable, jobs, 8);
DESK_SIZE(DeskShare, 8);
DESK_PLACE(DeskShare, p, 0);
DESK_PLACE(DeskShare, q, 4);
DESK_SIZE(Desk, 2736);
DESK_PLACE(Desk, clock, 0);
DESK_PLACE(Desk, charge, 8);
DESK_PLACE(Desk, feeds, 16);
DESK_PLACE(Desk, table, 664);
DESK_PLACE(Desk, share, 2720);
DESK_PLACE(Desk, previous, 2728);
DESK_SIZE(DeskAnswer, 2744);
DESK_PLACE(DeskAnswer, desk, 0);
DESK_PLACE(DeskAnswer, refusal, 2736);
DESK_SIZE(DeskReason, 48);
DESK_PLACE(DeskReason, refusal, 0);
DESK_PLACE(DeskReason, at, 8);
DESK_PLACE(DeskReason, jobs, 16);
DESK_PLACE(DeskReason, feeds, 24);
DESK_PLACE(DeskReason, job, 32);
DESK_PLACE(DeskReason, margin, 40);
DESK_SIZE(DeskStepped, 2760);
DESK_PLACE(DeskStepped, desk, 0);
DESK_PLACE(DeskStepped, refusal, 2736);
DESK_PLACE(DeskStepped, kind, 2740);
DESK_PLACE(DeskStepped, number, 2744);
DESK_PLACE(DeskStepped, owes, 2752);
DESK_SIZE(DeskListed, 8);
DESK_PLACE(DeskListed, refusal, 0);
DESK_PLACE(DeskListed, count, 4);
DESK_SIZE(DeskLabel, 24);
DESK_PLACE(DeskLabel, list, 0);
DESK_PLACE(DeskLabel, from, 8);
DESK_PLACE(DeskLabel, length, 16);
DESK_SIZE(DeskCursor, 48);
DESK_PLACE(DeskCursor, since, 0);
DESK_PLACE(DeskCursor, clock, 8);
DESK_PLACE(DeskCursor, number, 16);
DESK_PLACE(DeskCursor, position, 20);
DESK_PLACE(DeskCursor, ran, 24);
DESK_PLACE(DeskCursor, heads, 28);
DESK_PLACE(DeskCursor, mark, 32);
DESK_PLACE(DeskCursor, job, 36);
DESK_PLACE(DeskCursor, feed, 40);
DESK_SIZE(DeskBegun, 56);
DESK_PLACE(DeskBegun, cursor, 0);
DESK_PLACE(DeskBegun, refusal, 48);
DESK_SIZE(DeskWaved, 2800);
DESK_PLACE(DeskWaved, desk, 0);
DESK_PLACE(DeskWaved, cursor, 2736);
DESK_PLACE(DeskWaved, refusal, 2784);
DESK_PLACE(DeskWaved, steps, 2788);
DESK_PLACE(DeskWaved, bytes, 2792);
DESK_SIZE(DeskClosed, 64);
DESK_PLACE(DeskClosed, cursor, 0);
DESK_PLACE(DeskClosed, refusal, 48);
DESK_PLACE(DeskClosed, bytes, 56);
DESK_SIZE(DeskRead, 40);
DESK_PLACE(DeskRead, refusal, 0);
DESK_PLACE(DeskRead, line, 8);
DESK_PLACE(DeskRead, start, 16);
DESK_PLACE(DeskRead, end, 24);
DESK_PLACE(DeskRead, stretches, 32);
DESK_SIZE(DeskReading, 32);
DESK_PLACE(DeskReading, place, 0);
DESK_PLACE(DeskReading, lines, 8);
DESK_PLACE(DeskReading, at, 16);
DESK_PLACE(DeskReading, job, 24);
DESK_PLACE(DeskReading, feed, 28);
DESK_SIZE(DeskStretch, 72);
DESK_PLACE(DeskStretch, reading, 0);
DESK_PLACE(DeskStretch, refusal, 32);
DESK_PLACE(DeskStretch, line, 40);
DESK_PLACE(DeskStretch, from, 48);
DESK_PLACE(DeskStretch, to, 56);
DESK_PLACE(DeskStretch, kind, 64);
DESK_PLACE(DeskStretch, number, 68);

#undef DESK_PLACE
#undef DESK_SIZE
#undef DESK_HOLDS

/* Opens at the instant `start` with a list of `length` numbers, four a feed: period, work, offset, deadline length. From
 * then on each job and each piece owes `charge` ticks beside its work. 12, 8, 3 (`start`), 18, 2, 9, 10. */
DeskAnswer desk_open(const uint32_t *list, size_t length, uint64_t start, uint32_t charge);

/* The opening that carries a share `p`/`q` for exports with no date, which `desk_open` does not. It is not held against what
 * the feeds want. 12, 8, 3 (`start`), 18, 19, 2, 9, 10. */
DeskAnswer desk_open_shared(const uint32_t *list, size_t length, uint64_t start, uint32_t charge, uint32_t p, uint32_t q);

/* Asks for a job of `work` ticks, beside which it owes the charge, within `lead` ticks from now: taken exactly if it,
 * everything promised and every piece to come can still be done in time. 13, 1, 2, 3 (its deadline), 4, 5, 6. */
DeskAnswer desk_ask(Desk desk, uint32_t number, uint32_t work, uint32_t lead);

/* Asks for a job by its mesh file itself, a binary STL: `head` is the `lent` bytes from the front of the file, 84 or
 * more, and `size` the length of the whole file. The work goes by the triangle count that stands there: to 9,999 it is
 * 4 ticks, to 99,999 16, to 999,999 120, to 9,999,999 900, to 99,999,999 8,000, and above that 65,536. The ordinary ask
 * follows, the charge on top. 13, 15, 16, 17, 1, 2, 3 (its deadline), 4, 5, 6. */
DeskAnswer desk_ask_mesh(Desk desk, const uint8_t *head, size_t lent, uint64_t size, uint32_t number, uint32_t lead);

/* Asks for a job with no date. It is due as many ticks after the previous one's deadline, or after now if that is later, as
 * its work and the charge take at the share, rounded up; the ordinary ask follows, and a yes makes its deadline the
 * previous one. It never gets 6 where since the opening no job with a lead of its own was taken, every piece is due when
 * the next one comes, and what the feeds want of the processor, charges and all, and the share are at most 1 together.
 * 13, 1, 19 (no share), 2 (its work, or how far ahead it would be due), 3 (its deadline), 4, 5, 6. */
DeskAnswer desk_ask_undated(Desk desk, uint32_t number, uint32_t work);

/* Tells why a job would be refused, or how near it comes to that; nothing is changed. 13, 1, 2, 3, 4, 5, 6, as asking. */
DeskReason desk_why(Desk desk, uint32_t number, uint32_t work, uint32_t lead);

/* One step of one tick: the ready work with the earliest deadline gets it. What a piece has not got by its deadline it
 * owes no more. 13, 3 (the clock is at its last instant). */
DeskStepped desk_step(Desk desk);

/* Ends a live job before its time. 13, 7. */
DeskAnswer desk_end(Desk desk, uint32_t number);

/* Rests a feed, by its position from 1 to 16: its current piece owes nothing, the next comes at its time. 13, 7. */
DeskAnswer desk_rest(Desk desk, uint32_t position);

/* Writes the live jobs into the front of a buffer of `length` numbers, four a job (number, owed, deadline, figure), earliest
 * deadline first and lower number first on equal ones; the rest of the buffer is untouched. 13, 11. */
DeskListed desk_list(Desk desk, uint64_t *buffer, size_t length);

/* Finds the label of the one that the next step would name, nobody at the last instant or out of order: the label in the
 * first whole record of its number, or that at its position. Lengths are in bytes. No refusals. */
DeskLabel desk_label(Desk desk, const uint8_t *jobs, size_t jobs_length, const uint8_t *feeds, size_t feeds_length);

/* A run of steps as a waveform, the Value Change Dump of docs/WAVEFORM.md: who got each tick, for a waveform viewer. The run
 * begins at the desk's clock, with the lines in front and the first mark due; nothing is changed. 13. */
DeskBegun desk_wave_begin(Desk desk);

/* Goes on by at most `steps` steps, each as `desk_step` takes it: a line that is due is written if it fits, and with none
 * due a step is taken, which may make lines due. It stops at a line that does not fit, after so many steps, or quietly at a
 * step that would be refused. Whole lines go into the front of the buffer; the rest of it is untouched. Any calls but
 * `desk_step` may come in between. 11 is for a first line that does not fit: the steps before it are not taken then. 13 (the
 * desk, or a cursor not in order at its clock), 11. */
DeskWaved desk_wave(Desk desk, DeskCursor cursor, uint32_t steps, uint8_t *buffer, size_t length);

/* Closes the run: what is due, then the last mark, none where no step was taken. Where not all of it fits, the cursor comes
 * back with what is left: to be closed again, until nothing is written. The empty cursor has nothing left. 13 (any other
 * that is not in order at its own clock, or with that past the last instant), 11 (as above). */
DeskClosed desk_wave_close(DeskCursor cursor, uint8_t *buffer, size_t length);

/* Judges a text of any bytes: it is the waveform of a run, whether or not a desk could have run so, or no run's. 20. */
DeskRead desk_wave_read(const uint8_t *text, size_t length);

/* Reads on by one stretch, from the all-zero reading until `from` is `to`. What comes behind the stretch is not looked at.
 * 13 (the reading), 20. */
DeskStretch desk_wave_stretch(const uint8_t *text, size_t length, DeskReading reading);

#ifdef __cplusplus
}
#endif

#endif
