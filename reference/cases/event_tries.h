#ifndef EVENT_TRIES_H
#define EVENT_TRIES_H

#include "case_trace.h"

/* What is tried with one event. */

enum { MOST_BUFFER = 96 };

/* ---- Reading ---- */

void read_event_case(struct case_file *file, size_t place, const struct byte_string *string);

/* From the string's last place on, behind it and far away. */
void read_past_the_end(struct case_file *file, const struct byte_string *string);

/* The string is the event. */
void read_cut_everywhere(struct case_file *file, struct byte_string event);
void read_with_tails(struct case_file *file, const struct byte_string *event);
void read_at_every_place(struct case_file *file, const struct byte_string *event);

/* which: one of the event's numbers; 0 is the code, the others are the arguments. */
void read_padded_at(struct case_file *file, const struct phy_event *event, size_t which);
void read_tenth_bytes(struct case_file *file, const struct phy_event *event, size_t which);
void read_unfinished(struct case_file *file, const struct phy_event *event, size_t which);

/* Padded in one of its numbers, with faults in another behind it: padding is no fault, so that is the first. */
void read_padded_and_fault(
    struct case_file *file, const struct phy_event *event, size_t first, size_t second);

/* The first is the answer. */
void read_two_faults(struct case_file *file, const struct phy_event *event, size_t first, size_t second);

/* ---- Writing ---- */

/* The buffer has at most MOST_BUFFER bytes. */
void write_event_case(struct case_file *file, const struct phy_event *event, size_t place, size_t length);

/* needed: the length of the event, or one that it could be taken for. */
void write_around_the_fit(struct case_file *file, const struct phy_event *event, size_t place, size_t needed);
void write_outside(struct case_file *file, const struct phy_event *event, size_t needed);

void write_in_every_short_buffer(struct case_file *file, const struct phy_event *event);
void write_arguments_lacked(struct case_file *file, const struct phy_event *event);

#endif
