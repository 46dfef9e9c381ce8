#include "phy_fields.h"

const struct field_values phy_field_values[PHY_FIELDS] = {
    [FIELD_LINK] = {9, {0, 1, 2, 3, 4, 5, 6, 7, UINT64_MAX}},
    [FIELD_PORT] = {7, {0, 1, 2, 3, 4, 5, UINT64_MAX}},
    [FIELD_TIMER] = {5, {0, 1, 1000, 1001, UINT64_MAX}},
    [FIELD_DESTINATION] = {3, {0, 1, UINT64_MAX}},
    [FIELD_PROTOCOL] = {5, {0, 1, 2, 3, UINT64_MAX}},
    [FIELD_RATE] = {6, {0, 1, 7, 8, 9, 10}},
    [FIELD_TAG] = {5, {0, 1, 65535, 65536, UINT64_MAX}},
    [FIELD_BLOCKED] = {5, {0, 1, 255, 256, UINT64_MAX}},
    [FIELD_WAIT] = {9, {0, 1, 32767, 32768, 32769, 65534, 65535, 65536, UINT64_MAX}},
    [FIELD_PART] = {7, {0, 1, 999, 1000, 1001, 65536, UINT64_MAX}},
    [FIELD_REASON] = {8, {0, 1, 68, 69, 70, 71, 72, 80}},
    [FIELD_SOURCE] = {3, {0, 1, UINT64_MAX}},
    [FIELD_INBOUND] = {5, {0, 1, 2, 3, UINT64_MAX}},
    [FIELD_CONNECTION] = {5, {0, 1, 2, 3, UINT64_MAX}},
    [FIELD_FAR_CLOSED] = {4, {0, 1, 2, UINT64_MAX}},
    [FIELD_ACCEPT] = {4, {0, 1, 2, UINT64_MAX}}
};

void request_to_arguments(const struct phy_request *request, uint64_t out[PHY_ARGUMENTS])
{
    out[0] = request->destination;
    out[1] = request->protocol;
    out[2] = request->rate;
    out[3] = request->tag;
    out[4] = request->blocked;
    out[5] = request->wait;
}

void phy_to_fields(const struct phy *phy, uint64_t fields[PHY_FIELDS])
{
    fields[FIELD_LINK] = phy->link;
    fields[FIELD_PORT] = phy->port;
    fields[FIELD_TIMER] = phy->timer;
    request_to_arguments(&phy->request, fields + FIELD_DESTINATION);
    fields[FIELD_PART] = phy->part;
    fields[FIELD_REASON] = phy->reason;
    fields[FIELD_SOURCE] = phy->source;
    fields[FIELD_INBOUND] = phy->inbound_protocol;
    fields[FIELD_CONNECTION] = phy->connection_protocol;
    fields[FIELD_FAR_CLOSED] = phy->far_closed;
    fields[FIELD_ACCEPT] = phy->accept;
}

struct phy phy_from_fields(const uint64_t fields[PHY_FIELDS])
{
    return (struct phy){
        .link = fields[FIELD_LINK],
        .port = fields[FIELD_PORT],
        .timer = fields[FIELD_TIMER],
        .request = {
            .destination = fields[FIELD_DESTINATION],
            .protocol = fields[FIELD_PROTOCOL],
            .rate = fields[FIELD_RATE],
            .tag = fields[FIELD_TAG],
            .blocked = fields[FIELD_BLOCKED],
            .wait = fields[FIELD_WAIT]
        },
        .part = fields[FIELD_PART],
        .reason = fields[FIELD_REASON],
        .source = fields[FIELD_SOURCE],
        .inbound_protocol = fields[FIELD_INBOUND],
        .connection_protocol = fields[FIELD_CONNECTION],
        .far_closed = fields[FIELD_FAR_CLOSED],
        .accept = fields[FIELD_ACCEPT]
    };
}
