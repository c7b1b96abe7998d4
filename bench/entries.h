/* The baseline's entry points: those of the archive under other names. */
#ifndef ENTRIES_H
#define ENTRIES_H

#include "../include/mlca.h"

__typeof__(mlca_refine) baseline_refine;
__typeof__(mlca_irregular_count) baseline_irregular_count;
__typeof__(mlca_millimetres) baseline_millimetres;
__typeof__(mlca_refine_tables) baseline_refine_tables;
__typeof__(mlca_read_tables) baseline_read_tables;
__typeof__(mlca_write_tables) baseline_write_tables;
__typeof__(mlca_finished_counts) baseline_finished_counts;
__typeof__(mlca_stored_counts) baseline_stored_counts;
__typeof__(mlca_version) baseline_version;
__typeof__(mlca_irregular_count_tables) baseline_irregular_count_tables;

#endif
