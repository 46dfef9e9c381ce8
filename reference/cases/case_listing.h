#ifndef CASE_LISTING_H
#define CASE_LISTING_H

#include "case_trace.h"

void listing_case(struct case_file *file, const struct pieces *trace);
void list_bytes(struct case_file *file, const uint8_t *bytes, size_t length);
void list_string(struct case_file *file, const struct byte_string *string);

/* To each pair of link and port that a fresh phy comes to, and to L3 with the far side closed. */
extern const struct phy_item listing_ways[][SCRIPT_ITEMS];
extern const size_t listing_way_count;

void add_way(struct byte_string *string, const struct phy_item items[SCRIPT_ITEMS]);

enum { WALK_EVENTS = 50 };

/* So many events from a fresh state, whose numbers have at most so many groups. */
typedef struct byte_string walk_maker(struct case_file *file, size_t events, size_t most_groups);

void list_random_walks(struct case_file *file, walk_maker *make, int count, size_t most_groups);
void list_damaged_walks(struct case_file *file, walk_maker *make, int count, size_t most_groups);

#endif
