/* Every bit of an index: that the maker sets it for the events that it stands for, and that the search asks it for the
   constants that it stands for. */
#ifndef INDEX_BITS_H
#define INDEX_BITS_H

/* Runs them and counts them as passed or failed. */
void index_bits_run(void);

#endif
