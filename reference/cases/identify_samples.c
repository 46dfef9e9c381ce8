#include "identify_samples.h"

const struct identify_event_case identify_probes[] = {
    {IDENTIFY_SOAF, 0}, {IDENTIFY_SOAF, 1}, {IDENTIFY_SOAF, 2}, {IDENTIFY_SOAF, DWORD_PAST},
    {IDENTIFY_SOAF, UINT64_MAX},
    {IDENTIFY_DATA_DWORD, 0}, {IDENTIFY_DATA_DWORD, 1}, {IDENTIFY_DATA_DWORD, 2},
    {IDENTIFY_DATA_DWORD, TYPE_IDENTIFY}, {IDENTIFY_DATA_DWORD, TYPE_OTHER},
    {IDENTIFY_DATA_DWORD, 0x02000000}, {IDENTIFY_DATA_DWORD, 0x04000000},
    {IDENTIFY_DATA_DWORD, 0x08000000}, {IDENTIFY_DATA_DWORD, 0x10000000},
    {IDENTIFY_DATA_DWORD, 0x00800000}, {IDENTIFY_DATA_DWORD, DWORD_MOST},
    {IDENTIFY_DATA_DWORD, DWORD_PAST}, {IDENTIFY_DATA_DWORD, UINT64_MAX},
    {IDENTIFY_EOAF, 0}, {IDENTIFY_EOAF, 1}, {IDENTIFY_EOAF, 2}, {IDENTIFY_EOAF, DWORD_PAST + 1},
    {IDENTIFY_EOAF, UINT64_MAX},
    {IDENTIFY_HARD_RESET, 0}, {IDENTIFY_HARD_RESET, 1}, {IDENTIFY_HARD_RESET, UINT64_MAX},
    {IDENTIFY_OTHER_PRIMITIVE, 0}, {IDENTIFY_OTHER_PRIMITIVE, 1}, {IDENTIFY_OTHER_PRIMITIVE, DWORD_PAST},
    {IDENTIFY_FRAME_SENT, 0}, {IDENTIFY_FRAME_SENT, 1}, {IDENTIFY_FRAME_SENT, UINT64_MAX},
    {IDENTIFY_TICK, 0}, {IDENTIFY_TICK, 1}, {IDENTIFY_TICK, DWORD_PAST},
    {IDENTIFY_ENABLE, 0}, {IDENTIFY_ENABLE, 1}, {IDENTIFY_ENABLE, UINT64_MAX},
    {8, 0}, {8, 1}, {9, 0}, {256 + IDENTIFY_ENABLE, 0}, {DWORD_PAST + IDENTIFY_TICK, 0}, {UINT64_MAX, 0}
};
const size_t identify_probe_count = sizeof identify_probes / sizeof identify_probes[0];

const struct identify_item identify_scripts[][IDENTIFY_SCRIPT_ITEMS] = {
    /* Got, then sent; what follows the outcome is ignored, but bad events are still refused. */
    {{1, IDENTIFY_SOAF, 0}, {8, IDENTIFY_DATA_DWORD, TYPE_IDENTIFY}, {1, IDENTIFY_EOAF, 1},
     {1, IDENTIFY_HARD_RESET, 0}, {3, IDENTIFY_TICK, 0}, {2, IDENTIFY_FRAME_SENT, 0},
     {1, IDENTIFY_HARD_RESET, 0}, {1, IDENTIFY_EOAF, 2}, {1, 8, 0}, {1, IDENTIFY_ENABLE, 0}},
    /* Sent, then got. */
    {{1, IDENTIFY_FRAME_SENT, 0}, {3, IDENTIFY_TICK, 0}, {1, IDENTIFY_SOAF, 0},
     {8, IDENTIFY_DATA_DWORD, 0}, {1, IDENTIFY_TICK, 0}, {1, IDENTIFY_EOAF, 1}, {2, IDENTIFY_TICK, 0},
     {1, IDENTIFY_SOAF, 0}, {1, IDENTIFY_ENABLE, 0}, {1, IDENTIFY_TICK, 0}},
    /* Nine dwords and a tenth, then a good frame before the EOAF of the spoiled one. */
    {{1, IDENTIFY_SOAF, 0}, {10, IDENTIFY_DATA_DWORD, 0}, {1, IDENTIFY_HARD_RESET, 0}, {1, IDENTIFY_SOAF, 0},
     {8, IDENTIFY_DATA_DWORD, 0}, {1, IDENTIFY_EOAF, 1}, {1, IDENTIFY_FRAME_SENT, 0}},
    /* Nine dwords and the EOAF: one report only, and no frame after it counts. */
    {{1, IDENTIFY_SOAF, 0}, {9, IDENTIFY_DATA_DWORD, 0}, {2, IDENTIFY_EOAF, 1}, {1, IDENTIFY_SOAF, 0},
     {8, IDENTIFY_DATA_DWORD, 0}, {1, IDENTIFY_EOAF, 1}, {1, IDENTIFY_FRAME_SENT, 0},
     {2, IDENTIFY_TICK, 0}, {1, IDENTIFY_HARD_RESET, 0}, {1, IDENTIFY_TICK, 0}},
    /* Bad CRC. */
    {{1, IDENTIFY_SOAF, 0}, {8, IDENTIFY_DATA_DWORD, 0}, {1, IDENTIFY_EOAF, 0},
     {1, IDENTIFY_FRAME_SENT, 0}, {1, IDENTIFY_HARD_RESET, 0}, {1, IDENTIFY_ENABLE, 0}},
    /* Wrong type in the first dword, right afterwards. */
    {{1, IDENTIFY_SOAF, 0}, {1, IDENTIFY_DATA_DWORD, TYPE_OTHER}, {7, IDENTIFY_DATA_DWORD, 0},
     {1, IDENTIFY_EOAF, 1}, {1, IDENTIFY_HARD_RESET, 0}},
    /* Right type in the first dword, wrong afterwards: the first alone fixes it. */
    {{1, IDENTIFY_SOAF, 0}, {1, IDENTIFY_DATA_DWORD, 0}, {7, IDENTIFY_DATA_DWORD, DWORD_MOST},
     {1, IDENTIFY_EOAF, 1}, {1, IDENTIFY_FRAME_SENT, 0}},
    /* A second SOAF inside starts again, and forgets the type. */
    {{1, IDENTIFY_SOAF, 0}, {3, IDENTIFY_DATA_DWORD, TYPE_OTHER}, {1, IDENTIFY_SOAF, 0},
     {8, IDENTIFY_DATA_DWORD, 0}, {1, IDENTIFY_EOAF, 1}, {1, IDENTIFY_FRAME_SENT, 0}},
    {{1, IDENTIFY_SOAF, 0}, {4, IDENTIFY_DATA_DWORD, 0}, {2, IDENTIFY_SOAF, 0},
     {4, IDENTIFY_DATA_DWORD, 0}, {1, IDENTIFY_EOAF, 1}},
    /* HARD_RESET and another primitive inside are ignored. */
    {{1, IDENTIFY_SOAF, 0}, {1, IDENTIFY_HARD_RESET, 0}, {4, IDENTIFY_DATA_DWORD, 0},
     {1, IDENTIFY_HARD_RESET, 0}, {1, IDENTIFY_OTHER_PRIMITIVE, 0}, {4, IDENTIFY_DATA_DWORD, 0},
     {1, IDENTIFY_HARD_RESET, 0}, {1, IDENTIFY_EOAF, 1}, {1, IDENTIFY_FRAME_SENT, 0}},
    /* HARD_RESET before any frame, fresh and with the timer running; then Enable and a good frame. */
    {{1, IDENTIFY_HARD_RESET, 0}, {1, IDENTIFY_FRAME_SENT, 0}, {1, IDENTIFY_SOAF, 0},
     {1, IDENTIFY_ENABLE, 0}, {1, IDENTIFY_FRAME_SENT, 0}, {5, IDENTIFY_TICK, 0},
     {1, IDENTIFY_HARD_RESET, 0}, {2, IDENTIFY_TICK, 0}, {1, IDENTIFY_ENABLE, 0}, {1, IDENTIFY_SOAF, 0},
     {8, IDENTIFY_DATA_DWORD, 0}, {1, IDENTIFY_EOAF, 1}, {1, IDENTIFY_FRAME_SENT, 0}},
    /* Dwords and EOAF without an SOAF. */
    {{3, IDENTIFY_DATA_DWORD, 0}, {1, IDENTIFY_EOAF, 1}, {1, IDENTIFY_EOAF, 0},
     {1, IDENTIFY_OTHER_PRIMITIVE, 0}, {1, IDENTIFY_TICK, 0}, {1, IDENTIFY_ENABLE, 0}},
    /* Time-out at the thousandth tick, in the middle of a frame; our second frame starts nothing. */
    {{1, IDENTIFY_FRAME_SENT, 0}, {500, IDENTIFY_TICK, 0}, {1, IDENTIFY_FRAME_SENT, 0},
     {499, IDENTIFY_TICK, 0}, {1, IDENTIFY_SOAF, 0}, {3, IDENTIFY_DATA_DWORD, 0}, {2, IDENTIFY_TICK, 0},
     {5, IDENTIFY_DATA_DWORD, 0}, {1, IDENTIFY_EOAF, 1}, {1, IDENTIFY_HARD_RESET, 0},
     {1, IDENTIFY_ENABLE, 0}},
    /* Complete just before the thousandth tick. */
    {{1, IDENTIFY_SOAF, 0}, {1, IDENTIFY_FRAME_SENT, 0}, {999, IDENTIFY_TICK, 0},
     {8, IDENTIFY_DATA_DWORD, 0}, {1, IDENTIFY_EOAF, 1}, {1, IDENTIFY_TICK, 0}},
    /* A failed frame does not stop the timer. */
    {{1, IDENTIFY_FRAME_SENT, 0}, {1, IDENTIFY_SOAF, 0}, {8, IDENTIFY_DATA_DWORD, 0},
     {1, IDENTIFY_EOAF, 0}, {1001, IDENTIFY_TICK, 0}}
};
const size_t identify_script_count = sizeof identify_scripts / sizeof identify_scripts[0];
