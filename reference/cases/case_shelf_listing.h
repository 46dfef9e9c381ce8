#ifndef CASE_SHELF_LISTING_H
#define CASE_SHELF_LISTING_H

#include "port_box.h"
#include "shelf_samples.h"

void shelf_listing_case(struct case_file *file, size_t phys, const struct pieces *trace);
void list_shelf_bytes(struct case_file *file, size_t phys, const uint8_t *bytes, size_t length);
void list_shelf_string(struct case_file *file, size_t phys, const struct byte_string *string);

/* A trace from fresh phys, put together event by event. now: where those so far lead. */
struct shelf_story {
    struct port_box now;
    struct byte_string string;
};

struct shelf_story shelf_story(size_t phys);
struct port_result tell(struct shelf_story *story, struct shelf_event event);
void list_story(struct case_file *file, const struct shelf_story *story);

#endif
