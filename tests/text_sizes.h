/* Large texts, whose answers are known: numbers and words of a million bytes, lines by the thousand, and more lines
   than an answer's place can tell. Each must be answered within its time, by the library as by the reference. */
#ifndef TEXT_SIZES_H
#define TEXT_SIZES_H

void run_large_texts(void);

/* 268 megabytes of when lines: the library alone. */
void run_last_place(void);

#endif
