#include "case_listing.h"

#include "listing.h"

enum { SHORT_EVENTS = 14 };

void listing_case(struct case_file *file, const struct pieces *trace)
{
    case_number(file, KIND_LISTING);
    case_pieces(file, trace);
    list_trace(file->expected, trace->whole, trace->length);
}

void list_bytes(struct case_file *file, const uint8_t *bytes, size_t length)
{
    struct pieces trace;

    pieces_clear(&trace);
    pieces_add(&trace, 1, bytes, length);
    listing_case(file, &trace);
}

void list_string(struct case_file *file, const struct byte_string *string)
{
    list_bytes(file, string->bytes, string->length);
}

const struct phy_item listing_ways[][SCRIPT_ITEMS] = {
    {PLAIN(1, EVENT_TICK)},
    {TX_OPEN(7, 1, 0)},
    {OPEN_FROM(8, 2)},
    {TX_OPEN(7, 1, 0), OPEN_FROM(8, 2)},
    {TX_OPEN(8, 1, 0), OPEN_FROM(8, 2)},
    {TX_OPEN(7, 0, 0), PLAIN(1, EVENT_OPEN_ACCEPT)},
    {TX_OPEN(7, 2, 0), PLAIN(1, EVENT_OPEN_ACCEPT)},
    {TX_OPEN(7, 0, 0), PLAIN(1, EVENT_OPEN_ACCEPT), PLAIN(1, EVENT_CLOSE)},
    {TX_OPEN(7, 1, 0), PLAIN(1, EVENT_OPEN_ACCEPT), PLAIN(1, EVENT_CLOSE_CONNECTION)},
    {TX_OPEN(7, 0, 0), PLAIN(1, EVENT_OPEN_ACCEPT), PLAIN(1, EVENT_SMP_TRANSMIT_BREAK)},
    {TX_OPEN(7, 1, 0), PLAIN(1, EVENT_CANCEL_OPEN)},
    {OPEN_FROM(8, 2), PLAIN(1, EVENT_BREAK)},
    {OPEN_FROM(8, 2), PLAIN(1, EVENT_BREAK), TX_OPEN(7, 1, 0)},
    {TX_OPEN(7, 1, 0), PLAIN(1, EVENT_OPEN_ACCEPT), PLAIN(1, EVENT_BREAK)},
    {TX_OPEN(7, 1, 0), PLAIN(1, EVENT_BREAK)}
};
const size_t listing_way_count = sizeof listing_ways / sizeof listing_ways[0];

void add_way(struct byte_string *string, const struct phy_item items[SCRIPT_ITEMS])
{
    for (size_t i = 0; i < SCRIPT_ITEMS && items[i].repeat != 0; i++) {
        add_event(string, &items[i].event);
    }
}

void list_random_walks(struct case_file *file, walk_maker *make, int count, size_t most_groups)
{
    for (int i = 0; i < count; i++) {
        struct byte_string string = make(file, WALK_EVENTS, most_groups);

        list_string(file, &string);
    }
}

void list_damaged_walks(struct case_file *file, walk_maker *make, int count, size_t most_groups)
{
    for (int i = 0; i < count; i++) {
        struct byte_string string = make(file, SHORT_EVENTS, most_groups);

        random_damage(file, &string);
        list_string(file, &string);
    }
}
