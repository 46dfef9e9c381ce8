#include "case_shelf_listing.h"

#include "shelf_listing.h"

void shelf_listing_case(struct case_file *file, size_t phys, const struct pieces *trace)
{
    case_number(file, KIND_SHELF_LISTING);
    case_number(file, phys);
    case_pieces(file, trace);
    list_shelf_trace(file->expected, phys, trace->whole, trace->length);
}

void list_shelf_bytes(struct case_file *file, size_t phys, const uint8_t *bytes, size_t length)
{
    struct pieces trace;

    pieces_clear(&trace);
    pieces_add(&trace, 1, bytes, length);
    shelf_listing_case(file, phys, &trace);
}

void list_shelf_string(struct case_file *file, size_t phys, const struct byte_string *string)
{
    list_shelf_bytes(file, phys, string->bytes, string->length);
}

struct shelf_story shelf_story(size_t phys)
{
    return (struct shelf_story){.now = fresh_box(phys)};
}

struct port_result tell(struct shelf_story *story, struct shelf_event event)
{
    add_shelf_event(&story->string, event, SHORTEST);
    return port_step(box_port(&story->now), event);
}

void list_story(struct case_file *file, const struct shelf_story *story)
{
    list_shelf_string(file, story->now.count, &story->string);
}
