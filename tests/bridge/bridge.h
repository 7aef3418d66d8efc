/* What goes over the pipes between a program for this machine and the library, which is for x86-64 alone: the number of
 * the call, then its arguments in order, each list as its length in bytes and then its bytes; back comes the answer, and
 * the buffer where one was lent. Both sides lay a struct out alike: desk.h asserts it wherever it is compiled. */
#ifndef BRIDGE_H
#define BRIDGE_H

#include "desk.h"

enum {
    CALL_OPEN = 1,
    CALL_ASK,
    CALL_STEP,
    CALL_END,
    CALL_REST,
    CALL_LIST,
    CALL_LABEL,
    CALL_ASK_MESH,
    CALL_WHY,
    CALL_OPEN_SHARED,
    CALL_ASK_UNDATED,
    CALL_WAVE_BEGIN,
    CALL_WAVE,
    CALL_WAVE_CLOSE,
    CALL_WAVE_READ,
    CALL_WAVE_STRETCH
};

#endif
