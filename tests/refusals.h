/*
 * Every cause for which the search or the maker of indexes refuses, or the search finds nothing, alone and with each
 * other one that can hold as well: the first of them is given, with its place. Which is first stands in a table that
 * was written from Rules 8.14, 8.15 and 8.20 alone, and the reference must say the same. Each pair is a case, and one
 * more with a pattern that cannot match.
 */
#ifndef REFUSALS_H
#define REFUSALS_H

/* Runs them and counts them as passed or failed. */
void refusals_run(void);

#endif
