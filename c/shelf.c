/*
 * A shelf: eight bays format drives at once, through one port, and there are more drives than bays. The port hands each
 * Open to a bay that is free, or lets it wait until one is. A drive's label is printed only on the answer to that
 * drive's own Open that says Opened, in whichever bay that is. Neither time that has passed says it, nor the bay.
 */
#include <inttypes.h>
#include <stdio.h>

#include "louravela.h"

enum { BAYS = LOURAVELA_MOST_PHYS, DRIVES = 11 };

struct drive {
    uint64_t address;
    uint64_t tag;
};

struct shelf {
    struct louravela_bay row[BAYS];          /* lent to the port with each event */
    uint64_t queue[LOURAVELA_QUEUE_NUMBERS]; /* and so is this, where Opens wait */
    struct drive drives[DRIVES];             /* in the order in which their Opens are given to the port */
    size_t handed;                           /* so many of those Opens have gone to a bay: the first ones, in order */
    struct drive in_bay[BAYS];               /* whose Open a bay had last */
};

/* The microseconds that a wait means. */
static uint64_t microseconds(uint64_t wait)
{
    return wait < 32768 ? wait : 32768 + (wait - 32768) * 1000;
}

static void print_answer(uint64_t bay, const struct drive *drive, const struct louravela_port_reports *reports)
{
    const struct louravela_open *open = &reports->answered;
    int own = open->tag == drive->tag && open->destination == drive->address;

    if (own && reports->answer.code == LOURAVELA_ANSWER_OPENED) {
        printf("bay %" PRIu64 ": label for drive %" PRIx64 ", after %" PRIu64 " us\n", bay, open->destination,
               microseconds(open->wait));
    } else {
        printf("bay %" PRIu64 ": no label for drive %" PRIx64 ", answer %" PRIu64 "\n", bay, open->destination,
               reports->answer.code);
    }
}

/* An event for a bay, by its number, or for the port itself. */
static void take(struct shelf *shelf, uint64_t number, struct louravela_event event)
{
    struct louravela_port_stepped step =
        louravela_port_step(shelf->row, BAYS, shelf->queue, LOURAVELA_QUEUE_NUMBERS, number, event);

    if (step.reports.refusal != LOURAVELA_NOT_REFUSED) {
        printf("%" PRIu64 ": event %" PRIu64 " refused, %" PRIu64 "\n", number, event.code, step.reports.refusal);
        return;
    }
    /* The answer first: it is to the Open that the bay had, and not to the one that it may now receive. */
    if (step.reports.answer.code != 0) {
        print_answer(number, &shelf->in_bay[number], &step.reports);
    }
    if (step.handed != LOURAVELA_HANDED_TO_NONE) {
        shelf->in_bay[step.handed] = shelf->drives[shelf->handed];
        shelf->handed++;
    }
}

static void hear(struct shelf *shelf, uint64_t bay, uint64_t code)
{
    struct louravela_event event = {code, 0, 0, 0, 0, 0, 0};

    take(shelf, bay, event);
}

/* The recorder's counter, for each bay, once it has moved. */
static void take_stamps(struct shelf *shelf, uint32_t counter)
{
    struct louravela_event stamp = {LOURAVELA_TIME_STAMP, counter, 0, 0, 0, 0, 0};

    for (uint64_t bay = 0; bay < BAYS; bay++) {
        take(shelf, bay, stamp);
    }
}

/* Eight Opens go to the bays 0 to 7 at once, and three wait. */
static void give_opens(struct shelf *shelf)
{
    for (uint64_t i = 0; i < DRIVES; i++) {
        struct drive drive = {0x5000C500u + i, 100 + i};
        struct louravela_event tx_open = {LOURAVELA_TX_OPEN, drive.address, LOURAVELA_SSP, 9, drive.tag, 0, 0};

        shelf->drives[i] = drive;
        take(shelf, LOURAVELA_THE_PORT, tx_open);
    }
}

int main(void)
{
    static struct shelf shelf; /* of zeros: an empty queue */
    struct louravela_event no_destination = {LOURAVELA_OPEN_REJECT_RECEIVED, 1, 0, 0, 0, 0, 0};

    for (size_t bay = 0; bay < BAYS; bay++) {
        shelf.row[bay] = louravela_bay_fresh();
    }
    take_stamps(&shelf, 1000); /* says where the counter stands, and no more */
    give_opens(&shelf);
    take_stamps(&shelf, 1700);
    hear(&shelf, 5, LOURAVELA_OPEN_ACCEPT_RECEIVED); /* the drives answer in an order of their own */
    hear(&shelf, 0, LOURAVELA_OPEN_ACCEPT_RECEIVED);
    hear(&shelf, 7, LOURAVELA_OPEN_ACCEPT_RECEIVED);
    hear(&shelf, 2, LOURAVELA_OPEN_ACCEPT_RECEIVED);
    take(&shelf, 3, no_destination);             /* bay 3 is free, and receives the oldest Open that waits */
    hear(&shelf, 6, LOURAVELA_BREAK_RECEIVED);   /* no answer yet: it is given when the link is idle */
    hear(&shelf, 5, LOURAVELA_CLOSE_CONNECTION); /* this drive is done, so bay 5 receives the next */
    hear(&shelf, 5, LOURAVELA_CLOSE_RECEIVED);
    take_stamps(&shelf, 1950);                   /* bay 6 answers and is free, and receives the last */
    hear(&shelf, 3, LOURAVELA_OPEN_ACCEPT_RECEIVED);
    hear(&shelf, 6, LOURAVELA_OPEN_ACCEPT_RECEIVED);
    hear(&shelf, 5, LOURAVELA_OPEN_ACCEPT_RECEIVED);
    take_stamps(&shelf, 3000);                   /* the drives of bays 1 and 4 have said nothing in 2,000 ticks */
    return 0;
}
