/*
 * The port code of a SAS shelf for C99 and C++: one phy (link and port), a bay (a phy with its recorder's clock),
 * a port (up to eight bays and the Opens that wait), dword synchronization, identification, and the events of a trace.
 * The archives are for x86-64; link those you call:
 *
 *     liblouravela.a          all but the functions below
 *     liblouravela_step.a     louravela_phy_step
 *     liblouravela_bay.a      louravela_bay_step
 *     liblouravela_port.a     louravela_port_step
 *     liblouravela_run.a      louravela_phy_run
 *     liblouravela_shelf.a    louravela_port_run
 *     liblouravela_number.a   louravela_number_read, louravela_number_write
 *
 * Every function takes any numbers and returns. What it does not take it refuses by number: the state
 * comes back as given and every other report is zero. Each result is proved to be the one that the
 * definitions give; what is not proved is what only a caller can see to:
 *
 *   - a pointer is to that many bytes, numbers or records, aligned as C has them, that may be read, or
 *     written where they are lent to be written, and is not null, also where the length is 0;
 *   - what is lent to one call, its row, queue, trace and buffer, does not overlap, and nobody else
 *     touches it until the call returns.
 *
 * No function keeps a pointer, allocates, or has a state of its own, so any thread may call any of them. Those that
 * write an event or a number need at most 256 bytes of stack, their arguments among them; those of a port up to 8,600.
 * The archives of a port take memcpy, memmove and memset from the C library; the call that first finds one, in a
 * program that is linked neither with -static nor with -Wl,-z,now, takes some 2,000 bytes more.
 */
#ifndef LOURAVELA_H
#define LOURAVELA_H

#include <stddef.h>
#include <stdint.h>

/* The version of this header and of the archives that are built beside it. */
#define LOURAVELA_VERSION "4.8.1"

#ifdef __cplusplus
extern "C" {
#endif

/* ---- Numbers of refusal; 0 says that nothing is refused ---- */

enum {
    LOURAVELA_NOT_REFUSED = 0,
    LOURAVELA_BAD_STATE = 1,       /* the state handed in is not a valid one; none with a flag that is neither 0 nor 1 is */
    LOURAVELA_BAD_EVENT = 2,       /* unknown code, an argument out of range, or one that the event lacks and is not 0 */
    LOURAVELA_BUSY = 3,            /* Tx Open, and the port is not in P1 */
    LOURAVELA_NOTHING_PENDING = 4, /* Cancel Open, and the port is not in P2 */
    LOURAVELA_NOT_CONNECTED = 5,   /* Close or SMP Break, and the link is not in L3 */
    LOURAVELA_WRONG_PROTOCOL = 6,  /* SMP Break in L3 on a connection that is not SMP */
    LOURAVELA_CUT = 7,             /* a number's bytes end too early */
    LOURAVELA_OVERLONG = 8,        /* no longer given, since a number may be padded; 8 stays taken */
    LOURAVELA_TOO_LARGE = 9,       /* a number is 2^64 or more */
    LOURAVELA_NO_ROOM = 10,        /* the lent buffer is too short */
    LOURAVELA_QUEUE_FULL = 11,     /* Tx Open to the port itself, and 32 Opens wait */
    LOURAVELA_NO_SUCH_PHY = 12     /* a number that neither a phy of the port nor the port itself has */
};

/* ---- The phy ---- */

/* States of the link. */
enum {
    LOURAVELA_L0_IDLE = 0,
    LOURAVELA_L1_ARB_SEL = 1,
    LOURAVELA_L2_SELECTED = 2,
    LOURAVELA_L3_CONNECTED = 3,
    LOURAVELA_L4_DISCONNECT_WAIT = 4,
    LOURAVELA_L5_BREAK_WAIT = 5,
    LOURAVELA_L6_BREAK = 6
};

/* States of the port. */
enum {
    LOURAVELA_P1_IDLE = 1,
    LOURAVELA_P2_REQ_WAIT = 2,
    LOURAVELA_P3_CONNECTED = 3,
    LOURAVELA_P4_WAIT_FOR_CLOSE = 4
};

enum {
    LOURAVELA_SMP = 0,
    LOURAVELA_SSP = 1,
    LOURAVELA_STP = 2
};

/* Codes of events, with their arguments in order; a tick is one microsecond. */
enum {
    LOURAVELA_TX_OPEN = 1,              /* destination, protocol, rate 8 or 9, tag to 65,535, blocked count to 255, wait to 65,535 */
    LOURAVELA_CANCEL_OPEN = 2,
    LOURAVELA_CLOSE_CONNECTION = 3,
    LOURAVELA_SMP_TRANSMIT_BREAK = 4,
    LOURAVELA_ACCEPT_OPENS = 5,
    LOURAVELA_REJECT_OPENS = 6,
    LOURAVELA_OPEN_RECEIVED = 7,        /* source, protocol */
    LOURAVELA_OPEN_ACCEPT_RECEIVED = 8,
    LOURAVELA_OPEN_REJECT_RECEIVED = 9, /* reason 0 to 7 */
    LOURAVELA_AIP_RECEIVED = 10,
    LOURAVELA_BREAK_RECEIVED = 11,
    LOURAVELA_CLOSE_RECEIVED = 12,
    LOURAVELA_TICK = 13,
    LOURAVELA_HARD_RESET = 14,
    LOURAVELA_PHY_DISABLED = 15,
    LOURAVELA_TIME_STAMP = 16           /* counter to 4,294,967,295; of bays, ports and runs, a phy alone refuses it */
};

/* Answers to an Open; 0 says that there is none yet. */
enum {
    LOURAVELA_ANSWER_OPENED = 32,
    LOURAVELA_ANSWER_RETRY = 48,
    LOURAVELA_ANSWER_NO_DESTINATION = 49,
    LOURAVELA_ANSWER_PATHWAY_BLOCKED = 50,
    LOURAVELA_ANSWER_COLLIDED = 51,
    LOURAVELA_ANSWER_OPENED_BY_DESTINATION = 52,
    LOURAVELA_ANSWER_OPENED_BY_OTHER = 53,
    LOURAVELA_ANSWER_BAD_DESTINATION = 64,
    LOURAVELA_ANSWER_RATE = 65,
    LOURAVELA_ANSWER_PROTOCOL = 66,
    LOURAVELA_ANSWER_STP_BUSY = 67,
    LOURAVELA_ANSWER_WRONG_DESTINATION = 68,
    LOURAVELA_ANSWER_OPEN_TIMEOUT = 69,
    LOURAVELA_ANSWER_BREAK_RECEIVED = 70,
    LOURAVELA_ANSWER_PORT_LAYER_REQUEST = 71,
    LOURAVELA_ANSWER_TERMINATED = 80
};

/* Notices; 0 says that there is none. */
enum {
    LOURAVELA_NOTICE_OPENED = 1,
    LOURAVELA_NOTICE_CLOSED_NORMAL = 2,
    LOURAVELA_NOTICE_CLOSE_TIMEOUT = 3,
    LOURAVELA_NOTICE_BREAK_REQUESTED = 4,
    LOURAVELA_NOTICE_BREAK_RECEIVED = 5,
    LOURAVELA_NOTICE_TRANSITION_TO_IDLE = 6,
    LOURAVELA_NOTICE_RESET = 7
};

/* Primitives sent; 0 says that none is. */
enum {
    LOURAVELA_SENT_OPEN = 1,
    LOURAVELA_SENT_OPEN_ACCEPT = 2,
    LOURAVELA_SENT_OPEN_REJECT = 3,
    LOURAVELA_SENT_CLOSE = 4,
    LOURAVELA_SENT_BREAK = 5
};

/*
 * The six arguments of a Tx Open. A wait has two slopes: below 32,768 it is microseconds, and from there on a wait of v
 * means 32,768 microseconds and v - 32,768 milliseconds.
 */
struct louravela_open {
    uint64_t destination;
    uint64_t protocol;
    uint64_t rate;
    uint64_t tag;
    uint64_t blocked_count;
    uint64_t wait;
};

/* A phy. A field that its state does not use is zero. */
struct louravela_phy {
    uint64_t link;
    uint64_t port;
    uint64_t timer;                /* ticks left, 1 to 1,000, in L1, L4 and L5 */
    struct louravela_open request; /* in P2 and P4, its wait as it has grown */
    uint64_t part;                 /* in P2 with a wait from 32,768 to 65,534: ticks beyond the wait, 0 to 999 */
    uint64_t reason;               /* in P4: the answer that it is waiting to give */
    uint64_t inbound_source;       /* in L2: who opens us */
    uint64_t inbound_protocol;     /* in L2: and by which protocol */
    uint64_t connection_protocol;  /* in P3 */
    uint64_t far_closed;           /* a flag, in L3: the far end has closed */
    uint64_t accept;               /* a flag: inbound opens are accepted */
};

/* An event: its code and its arguments in order; those that it lacks are zero. */
struct louravela_event {
    uint64_t code;
    uint64_t first;
    uint64_t second;
    uint64_t third;
    uint64_t fourth;
    uint64_t fifth;
    uint64_t sixth;
};

/* What a step gives. */
struct louravela_stepped {
    struct louravela_phy next;
    struct louravela_open answered; /* the arguments of the Open that is answered; zero without an answer */
    uint64_t answer;
    uint64_t notice;
    uint64_t sent;
    uint64_t refusal;               /* 0 to 6 */
};

/* A fresh phy: idle, opens rejected. */
struct louravela_phy louravela_phy_fresh(void);

/* One event. */
struct louravela_stepped louravela_phy_step(struct louravela_phy phy, struct louravela_event event);

/* ---- A bay: a phy with its recorder's clock ---- */

/*
 * The recorder's counter of microseconds has 32 bits and goes round past 4,294,967,295. The first time stamp only sets
 * the base; each later one stands for as many ticks as the counter has moved since the base, and becomes the base.
 * Equal stamps are no tick, and one step back is 4,294,967,295. Ticks come besides and leave the base, as a reset does.
 * Of more than one round between two stamps, 71.6 minutes, whole rounds are lost.
 */
struct louravela_bay {
    struct louravela_phy phy;
    uint64_t base;     /* the counter of the last stamp, of 32 bits; zero where none has come. Else the state is bad */
    uint64_t base_set; /* a flag: one has come */
};

/* A code, and the tick of the stamp's gap at which it came, counted from 1; 0 for any other event, or without a code. */
struct louravela_report {
    uint64_t code;
    uint64_t tick;
};

/* What a step gives. Only a time stamp can give two notices. */
struct louravela_bay_stepped {
    struct louravela_bay next;
    struct louravela_open answered; /* the arguments of the Open that is answered; zero without an answer */
    struct louravela_report answer;
    struct louravela_report notice;
    struct louravela_report second_notice;
    struct louravela_report sent;
    uint64_t refusal;               /* 0 to 6 */
};

/* A fresh bay: a fresh phy, and no base. */
struct louravela_bay louravela_bay_fresh(void);

/* One event. A time stamp costs the same however many ticks it stands for, but for two moves of the link at most. */
struct louravela_bay_stepped louravela_bay_step(struct louravela_bay bay, struct louravela_event event);

/* ---- Runs ---- */

/* How a run stopped. */
enum {
    LOURAVELA_STOPPED_AT_END = 0,
    LOURAVELA_STOPPED_AT_BUDGET = 1,
    LOURAVELA_STOPPED_AT_FAULT = 2
};

/*
 * What a run gives. `refusal` is looked at first: a refused run took nothing, its phy is the one given, and every
 * other field is zero, `how` too, so that `how` alone would say that the trace had ended.
 */
struct louravela_run_reply {
    struct louravela_bay next; /* the base begins unset in each run */
    size_t count;     /* events taken; a refused event counts as taken */
    uint64_t how;     /* where nothing is refused */
    uint64_t fault;   /* stopped at a fault: its number, 2, 7 or 9, else 0 */
    size_t place;     /* and the place of the event's first byte, else 0 */
    uint64_t refusal; /* 0, 1 or 10 */
};

/*
 * The events of a trace, until it ends, `budget` events are taken, or it has a fault, looked for in
 * that order. For each event taken one byte of the buffer is written: its refusal, or else its answer,
 * or else 0. Later bytes keep their values. A buffer shorter than the budget is refused with 10. The first
 * time stamp of a run only sets the base, also where the trace is run in pieces: for a clock that goes on, read each
 * event by louravela_event_read and take it by louravela_bay_step.
 */
struct louravela_run_reply louravela_phy_run(struct louravela_phy phy, const uint8_t *trace, size_t trace_length,
                                             size_t budget, uint8_t *buffer, size_t buffer_length);

/* ---- A port: one to eight bays in a row, and the Opens that wait for a free phy ---- */

enum {
    LOURAVELA_MOST_PHYS = 8,
    LOURAVELA_MOST_WAITING = 32,
    LOURAVELA_QUEUE_NUMBERS = 192, /* lent as a queue, however many Opens wait */
    LOURAVELA_THE_PORT = 127,      /* in the place of a phy's number: the port itself */
    LOURAVELA_HANDED_TO_NONE = 127 /* in the place of a phy's number: no phy received an Open */
};

/*
 * A port has no record of its own. Its caller keeps a row of bays and a queue, and lends both to each call, which
 * changes them where they are. A bay's place in the row, from 0, is the number of its phy. A queue has six numbers
 * for each Open that waits, in the order of struct louravela_open, the oldest Open first, and zeros behind the last.
 * A fresh port is a row of what louravela_bay_fresh gives, with a queue of zeros.
 *
 * After every event, while an Open waits and a phy is free, in P1 with L0, the oldest Open is handed to the
 * lowest-numbered free phy, as a Tx Open with the wait that it came with: in a queue no wait grows. So the port hands
 * out the Opens that it accepts in their order, each at most once, and at most one behind an event. Its caller knows
 * which: the oldest that waits, or where none does, the one that the event brings.
 *
 * A bad state is: a row of no bays or of more than eight; one with a bay that is no valid one; a queue of other than
 * 192 numbers, with an argument of an Open out of its range, or with a number behind the last Open that is not zero;
 * and an Open that waits beside a free phy.
 */

/* What the event itself reports, as of a bay. */
struct louravela_port_reports {
    struct louravela_open answered; /* the arguments of the Open that is answered; zero without an answer */
    struct louravela_report answer;
    struct louravela_report notice;
    struct louravela_report second_notice;
    struct louravela_report sent;
    uint64_t refusal;               /* 0 to 6, 11 or 12 */
};

/* What a step gives. An answer is to the Open that the event's phy had before: the hand-out follows the whole event. */
struct louravela_port_stepped {
    struct louravela_port_reports reports; /* zero for a Tx Open that the port accepts */
    uint64_t handed;                       /* the phy that then received an Open; 127 where none did */
    uint64_t handed_sent;                  /* and what that phy sent, an OPEN; else 0 */
};

/*
 * One event, for the phy with this number or, with 127, for the port itself, to which only a Tx Open may go. A Tx
 * Open for a phy goes straight to it, past the queue. No other record changes but that of a phy that receives an
 * Open. Refused in this order: 1; 2, also for any other event to the port; 12; 11; then 3 to 6. Refused, every byte
 * lent is as it was, and 127 stands for the phy that received an Open. Each call judges the row and the queue, so it
 * costs more with more phys; a run judges them once.
 */
struct louravela_port_stepped louravela_port_step(struct louravela_bay *row, size_t row_length, uint64_t *queue,
                                                  size_t queue_length, uint64_t number, struct louravela_event event);

/*
 * What a run gives besides what it leaves in the row, the queue and the buffer. `refusal` is looked at first: a
 * refused run took nothing, every byte lent is as it was, and every other field is zero, `how` too.
 */
struct louravela_port_run_reply {
    size_t count;     /* events taken; a refused event counts as taken */
    uint64_t how;     /* where nothing is refused */
    uint64_t fault;   /* stopped at a fault: its number, 2, 7 or 9, else 0 */
    size_t place;     /* and the place of the event's first byte, where its phy's number begins, else 0 */
    uint64_t refusal; /* 0, 1 or 10 */
};

/*
 * The events of a shelf trace, each behind the number of its phy; any number is read there, and the port judges it.
 * The run stops as louravela_phy_run does, and writes a byte for each event: its refusal, or else the answer of its
 * own phy, or else 0. Later bytes keep their values. It refuses 1, then 10 where the buffer is shorter than the
 * budget. The base of every bay begins unset in each run. A run that stops inside a trace keeps what the events
 * before did. An event is written by louravela_number_write and then louravela_event_write; for a clock that goes on,
 * read each by louravela_number_read and louravela_event_read, and take it by louravela_port_step.
 */
struct louravela_port_run_reply louravela_port_run(struct louravela_bay *row, size_t row_length, uint64_t *queue,
                                                   size_t queue_length, const uint8_t *trace, size_t trace_length,
                                                   size_t budget, uint8_t *buffer, size_t buffer_length);

/* ---- Events of a trace ---- */

/* What stands at a place. */
enum {
    LOURAVELA_FOUND_EVENT = 0,
    LOURAVELA_FOUND_END = 1,
    LOURAVELA_FOUND_FAULT = 2
};

/* At the end and on a fault the event is zero and `next` is the place given. */
struct louravela_event_reply {
    struct louravela_event event;
    size_t next;      /* the place after the event */
    uint64_t how;
    uint64_t refusal; /* on a fault its number, 2, 7 or 9, else 0 */
};

/* What writing an event or a number gives. */
struct louravela_write_reply {
    size_t length;    /* bytes written; refused, 0 */
    uint64_t refusal; /* 0 or 10, and for an event also 2 */
};

/* The event at any place; at the trace's end or past it the trace has ended. */
struct louravela_event_reply louravela_event_read(const uint8_t *trace, size_t trace_length, size_t place);

/* An event's bytes at a place of a buffer. Refused, no byte is changed. */
struct louravela_write_reply louravela_event_write(struct louravela_event event, uint8_t *buffer, size_t buffer_length,
                                                   size_t place);

/* ---- Numbers of a trace: groups of seven bits, lowest first, the high bit set if another follows ---- */

/* On a fault the value is 0 and `next` is the place given. */
struct louravela_number_reply {
    uint64_t value;
    size_t next;      /* the place after the number */
    uint64_t refusal; /* 0, 7 or 9 */
};

/* The number at any place, of 1 to 10 bytes, zero groups at its end among them; at the end or past it, it is cut. */
struct louravela_number_reply louravela_number_read(const uint8_t *bytes, size_t length, size_t place);

/* A value's bytes, 1 to 10 and no more than it needs, at a place of a buffer. Refused, no byte is changed. */
struct louravela_write_reply louravela_number_write(uint64_t value, uint8_t *buffer, size_t buffer_length,
                                                    size_t place);

/* ---- Dword synchronization: states 0 to 9 ---- */

enum {
    LOURAVELA_DWS_INVALID_DWORD = 0, /* an invalid dword */
    LOURAVELA_DWS_DATA_DWORD = 1,    /* a valid data dword */
    LOURAVELA_DWS_PRIMITIVE = 2,     /* a valid primitive */
    LOURAVELA_DWS_RESTART = 3
};

/* Reports; 0 says that there is none. */
enum {
    LOURAVELA_DWS_ACQUIRED = 1,
    LOURAVELA_DWS_LOST = 2
};

struct louravela_dws_stepped {
    uint64_t state;
    uint64_t report;
    uint64_t refusal; /* 0, 1 or 2 */
};

/* The fresh state, 0. */
uint64_t louravela_dws_fresh(void);

struct louravela_dws_stepped louravela_dws_step(uint64_t state, uint64_t event);

/* ---- Identification ---- */

/* States of the receiver. */
enum {
    LOURAVELA_RECEIVER_IDLE = 0,
    LOURAVELA_RECEIVER_RECEIVING = 1,
    LOURAVELA_RECEIVER_SPOILED = 2,
    LOURAVELA_RECEIVER_COMPLETED = 3
};

/* Codes of events. The argument is 0 where none is named. */
enum {
    LOURAVELA_IDENTIFY_SOAF = 0,
    LOURAVELA_IDENTIFY_DATA_DWORD = 1, /* the dword, frame byte 0 highest */
    LOURAVELA_IDENTIFY_EOAF = 2,       /* 1 where the CRC was good, else 0 */
    LOURAVELA_IDENTIFY_HARD_RESET = 3,
    LOURAVELA_IDENTIFY_OTHER_PRIMITIVE = 4,
    LOURAVELA_IDENTIFY_OWN_FRAME_SENT = 5,
    LOURAVELA_IDENTIFY_TICK = 6,
    LOURAVELA_IDENTIFY_ENABLE = 7
};

/* Reports; 0 says that there is none. From Complete on they are outcomes too. */
enum {
    LOURAVELA_IDENTIFY_FAILED = 1,
    LOURAVELA_IDENTIFY_COMPLETE = 2,
    LOURAVELA_IDENTIFY_TIME_OUT = 3,
    LOURAVELA_IDENTIFY_RESET_RECEIVED = 4
};

struct louravela_identification {
    uint64_t receiver;
    uint64_t count;   /* data dwords, 0 to 8, while Receiving */
    uint64_t timer;   /* ticks left, 1 to 1,000, while the other side's frame is awaited */
    uint64_t outcome; /* 0, or a report from Complete on */
    uint64_t typed;   /* a flag: the frame's type is Identify */
    uint64_t got;     /* a flag: an identify frame was got */
    uint64_t sent;    /* a flag: our own frame was sent */
};

struct louravela_identify_stepped {
    struct louravela_identification next;
    uint64_t report;
    uint64_t refusal; /* 0, 1 or 2 */
};

/* The fresh state: Idle, all else unset. */
struct louravela_identification louravela_identify_fresh(void);

struct louravela_identify_stepped louravela_identify_step(struct louravela_identification state, uint64_t event,
                                                          uint64_t argument);

#ifdef __cplusplus
}
#endif

#endif
