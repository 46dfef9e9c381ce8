#include "bay_fields.h"

void bay_to_fields(const struct bay *bay, uint64_t fields[BAY_FIELDS])
{
    phy_to_fields(&bay->phy, fields);
    fields[FIELD_BASE] = bay->base;
    fields[FIELD_BASE_SET] = bay->base_set;
}
