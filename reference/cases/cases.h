#ifndef CASES_H
#define CASES_H

#include "case_file.h"

void make_number_cases(struct case_file *file);
void make_dws_cases(struct case_file *file);
void make_identify_cases(struct case_file *file);
void make_phy_cases(struct case_file *file);

/* More of the phy: the two slopes of its wait. */
void make_wait_cases(struct case_file *file);

/* Comes first in its file; false if its lines do not fill the buffer that they are meant for. */
bool make_full_output_case(struct case_file *file);

void make_read_event_cases(struct case_file *file);
void make_write_event_cases(struct case_file *file);
void make_whole_trace_cases(struct case_file *file);
void make_run_cases(struct case_file *file);
void make_listing_cases(struct case_file *file);

/* More of them: stamps, alone and in traces. */
void make_read_stamp_cases(struct case_file *file);
void make_write_stamp_cases(struct case_file *file);
void make_stamped_trace_cases(struct case_file *file);
void make_stamped_run_cases(struct case_file *file);
void make_stamped_listing_cases(struct case_file *file);

void make_bay_cases(struct case_file *file);
void make_refused_bay_cases(struct case_file *file);

/* Of a shelf: its events, its port and its runs. */
void make_read_shelf_event_cases(struct case_file *file);
void make_write_shelf_event_cases(struct case_file *file);
void make_port_cases(struct case_file *file);
void make_refused_port_cases(struct case_file *file);
void make_shelf_run_cases(struct case_file *file);

/* Listings of shelf traces; the second: every way to a hand-out. */
void make_shelf_listing_cases(struct case_file *file);
void make_hand_out_listing_cases(struct case_file *file);

/* One trace, as it is; the program that takes it is the lister. */
void make_lister_case(struct case_file *file);

/* From the traces of a folder; false if one of them is wrong or cannot be read. */
bool make_named_listing_cases(struct case_file *file, const char *folder);
bool make_named_shelf_listing_cases(struct case_file *file, const char *folder);

#endif
