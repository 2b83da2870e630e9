/* The lines of the vectors file that are about books of accounts. */
#ifndef VECTOR_BOOKS_H
#define VECTOR_BOOKS_H

#include "fields.h"

/* Puts a line to the library, and holds the answer to it; false if the operation of this name is about no book. */
bool run_book(struct text line, struct text name);

/* Prints how many lines of each operation were run, with commas between them. */
void print_book_lines(void);

#endif
