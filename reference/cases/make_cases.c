#include "cases.h"

#include <stdio.h>
#include <stdlib.h>

/* Each machine has its own seed, so more cases for one leave those of the others as they are. */
enum case_seed {
    SEED_NUMBER = 1001,
    SEED_DWS = 2002,
    SEED_IDENTIFY = 3003,
    SEED_PHY = 4004,
    SEED_WAIT = 5005,
    SEED_READ_EVENT = 6006,
    SEED_WRITE_EVENT = 7007,
    SEED_TRACE = 8008,
    SEED_RUN = 9009,
    SEED_LISTING = 10010,
    SEED_LISTER = 11011,
    SEED_READ_STAMP = 12012,
    SEED_WRITE_STAMP = 13013,
    SEED_STAMPED_TRACE = 14014,
    SEED_STAMPED_RUN = 15015,
    SEED_STAMPED_LISTING = 16016,
    SEED_BAY = 17017,
    SEED_READ_SHELF_EVENT = 18018,
    SEED_WRITE_SHELF_EVENT = 19019,
    SEED_PORT = 20020,
    SEED_SHELF_RUN = 21021,
    SEED_SHELF_LISTING = 22022
};

static bool open_cases(struct case_file *file, const char *folder, const char *program)
{
    bool opened = case_file_open(file, folder, program);

    if (!opened) {
        fprintf(stderr, "make_cases: cannot open %s/%s/stdin and stdout\n", folder, program);
    }
    return opened;
}

static bool close_cases(struct case_file *file)
{
    bool whole = case_file_close(file);

    if (!whole) {
        fputs("make_cases: cannot write the whole of the files\n", stderr);
    }
    return whole;
}

static bool make_machine_cases(const char *folder)
{
    struct case_file file;

    if (!open_cases(&file, folder, "cases")) {
        return false;
    }
    file.random = SEED_NUMBER;
    make_number_cases(&file);
    file.random = SEED_DWS;
    make_dws_cases(&file);
    file.random = SEED_IDENTIFY;
    make_identify_cases(&file);
    file.random = SEED_PHY;
    make_phy_cases(&file);
    file.random = SEED_WAIT;
    make_wait_cases(&file);
    file.random = SEED_BAY;
    make_bay_cases(&file);
    make_refused_bay_cases(&file);
    return close_cases(&file);
}

static bool make_trace_cases(const char *folder, const char *traces)
{
    struct case_file file;

    if (!open_cases(&file, folder, "trace_cases")) {
        return false;
    }

    bool full = make_full_output_case(&file);

    if (!full) {
        fputs("make_cases: the first lines do not fill a buffer to its last byte\n", stderr);
    }
    file.random = SEED_READ_EVENT;
    make_read_event_cases(&file);
    file.random = SEED_READ_STAMP;
    make_read_stamp_cases(&file);
    file.random = SEED_WRITE_EVENT;
    make_write_event_cases(&file);
    file.random = SEED_WRITE_STAMP;
    make_write_stamp_cases(&file);
    file.random = SEED_TRACE;
    make_whole_trace_cases(&file);
    file.random = SEED_STAMPED_TRACE;
    make_stamped_trace_cases(&file);
    file.random = SEED_RUN;
    make_run_cases(&file);
    file.random = SEED_STAMPED_RUN;
    make_stamped_run_cases(&file);
    file.random = SEED_LISTING;
    make_listing_cases(&file);

    bool named = make_named_listing_cases(&file, traces);

    file.random = SEED_STAMPED_LISTING;
    make_stamped_listing_cases(&file);
    return close_cases(&file) && full && named;
}

static bool make_shelf_cases(const char *folder)
{
    struct case_file file;

    if (!open_cases(&file, folder, "shelf_cases")) {
        return false;
    }
    file.random = SEED_READ_SHELF_EVENT;
    make_read_shelf_event_cases(&file);
    file.random = SEED_WRITE_SHELF_EVENT;
    make_write_shelf_event_cases(&file);
    file.random = SEED_PORT;
    make_port_cases(&file);
    make_refused_port_cases(&file);
    file.random = SEED_SHELF_RUN;
    make_shelf_run_cases(&file);
    return close_cases(&file);
}

static bool make_shelf_listings(const char *folder, const char *shelf_traces)
{
    struct case_file file;

    if (!open_cases(&file, folder, "shelf_listing_cases")) {
        return false;
    }
    file.random = SEED_SHELF_LISTING;
    make_shelf_listing_cases(&file);
    make_hand_out_listing_cases(&file);

    bool named = make_named_shelf_listing_cases(&file, shelf_traces);

    return close_cases(&file) && named;
}

static bool make_lister_trace(const char *folder)
{
    struct case_file file;

    if (!open_cases(&file, folder, "lister")) {
        return false;
    }
    file.random = SEED_LISTER;
    make_lister_case(&file);
    return close_cases(&file);
}

int main(int argc, char **argv)
{
    if (argc != 4) {
        fputs("usage: make_cases FOLDER TRACES SHELF_TRACES\n", stderr);
        return EXIT_FAILURE;
    }

    bool machines = make_machine_cases(argv[1]);
    bool traces = make_trace_cases(argv[1], argv[2]);
    bool shelf = make_shelf_cases(argv[1]);
    bool shelf_listings = make_shelf_listings(argv[1], argv[3]);
    bool lister = make_lister_trace(argv[1]);

    return machines && traces && shelf && shelf_listings && lister ? EXIT_SUCCESS : EXIT_FAILURE;
}
