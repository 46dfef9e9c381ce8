/*
 * A bay of the shelf: it opens a connection to its drive and prints the drive's label. It prints only on
 * the answer to its own Open that says Opened. Time that has passed says nothing: the clock is one more
 * event, a time stamp, and if no answer comes, one will come of itself, that the Open has timed out.
 */
#include <inttypes.h>
#include <stdio.h>

#include "louravela.h"

struct drive_bay {
    int number;
    uint64_t tag;               /* of the Open that this bay has under way */
    struct louravela_bay state; /* between events */
};

/* The microseconds that a wait means. */
static uint64_t microseconds(uint64_t wait)
{
    return wait < 32768 ? wait : 32768 + (wait - 32768) * 1000;
}

static void take(struct drive_bay *bay, struct louravela_event event)
{
    struct louravela_bay_stepped step = louravela_bay_step(bay->state, event);

    bay->state = step.next;
    if (step.refusal != LOURAVELA_NOT_REFUSED) {
        printf("bay %d: event %" PRIu64 " refused, %" PRIu64 "\n", bay->number, event.code, step.refusal);
    }
    if (step.answer.code == 0) {
        return; /* no answer yet, so no label, however late it is */
    }
    if (step.answer.code == LOURAVELA_ANSWER_OPENED && step.answered.tag == bay->tag) {
        printf("bay %d: label for drive %" PRIx64 ", after %" PRIu64 " us\n", bay->number, step.answered.destination,
               microseconds(step.answered.wait));
    } else {
        printf("bay %d: no label, answer %" PRIu64 ", %" PRIu64 " us after the stamp before\n", bay->number,
               step.answer.code, step.answer.tick);
    }
}

/* The recorder's counter, once it has moved. */
static void take_stamp(struct drive_bay *bay, uint32_t counter)
{
    struct louravela_event stamp = {LOURAVELA_TIME_STAMP, counter, 0, 0, 0, 0, 0};

    take(bay, stamp);
}

int main(void)
{
    struct louravela_event accepted = {LOURAVELA_OPEN_ACCEPT_RECEIVED, 0, 0, 0, 0, 0, 0};
    struct louravela_event broken = {LOURAVELA_BREAK_RECEIVED, 0, 0, 0, 0, 0, 0};

    for (int number = 0; number < 3; number++) {
        uint64_t tag = 100 + (uint64_t)number;
        struct louravela_event tx_open = {LOURAVELA_TX_OPEN, 0x5000C500u + (uint64_t)number, LOURAVELA_SSP, 9, tag, 0, 0};
        struct drive_bay bay = {number, tag, louravela_bay_fresh()};

        take_stamp(&bay, UINT32_MAX - 499); /* says where the counter stands, and no more */
        take(&bay, tx_open);
        take_stamp(&bay, 200); /* it has gone round: 700 ticks */
        if (number == 0) {
            take(&bay, accepted); /* this drive answers */
        }
        if (number == 1) {
            take(&bay, broken); /* this one breaks off, and the Open is not lost: it is answered when the link is idle */
        }
        take_stamp(&bay, 1500); /* the third says nothing at all */
    }
    return 0;
}
