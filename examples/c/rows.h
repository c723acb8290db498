/* Whether the rows of the belt leave nothing open. */
#ifndef ROWS_H
#define ROWS_H

/* Prints the rows; 1 if every event that can happen has exactly one. */
int rows_complete(void);

#endif
