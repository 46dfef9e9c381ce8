#ifndef REFUSALS_H
#define REFUSALS_H

enum refusal {
    NOT_REFUSED = 0,
    REFUSED_BAD_STATE = 1,
    REFUSED_BAD_EVENT = 2,
    REFUSED_BUSY = 3,
    REFUSED_NOTHING_PENDING = 4,
    REFUSED_NOT_CONNECTED = 5,
    REFUSED_WRONG_PROTOCOL = 6,
    REFUSED_CUT = 7,
    /* Given no longer, since numbers may be padded; its number stays taken. */
    REFUSED_OVERLONG = 8,
    REFUSED_TOO_LARGE = 9,
    REFUSED_NO_ROOM = 10,
    REFUSED_QUEUE_FULL = 11,
    REFUSED_NO_SUCH_PHY = 12
};

#endif
