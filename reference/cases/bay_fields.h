#ifndef BAY_FIELDS_H
#define BAY_FIELDS_H

#include "bay.h"
#include "phy_fields.h"

/* The clock stands behind the phy. */
enum bay_field {
    FIELD_BASE = PHY_FIELDS,
    FIELD_BASE_SET,
    BAY_FIELDS
};

void bay_to_fields(const struct bay *bay, uint64_t fields[BAY_FIELDS]);

#endif
