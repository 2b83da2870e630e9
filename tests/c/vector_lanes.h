/* The lines of the vectors file that are about several lanes. */
#ifndef VECTOR_LANES_H
#define VECTOR_LANES_H

#include "fields.h"

/* Puts a line to the library, and holds the answer to it; false if the operation of this name has no lanes. */
bool run_lanes(struct text line, struct text name);

/* Prints how many lines of each operation were run, with commas between them. */
void print_lane_lines(void);

#endif
