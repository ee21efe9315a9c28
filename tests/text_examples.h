/* The texts under examples/ and one with !=; and the bench's and that one with every byte and every length changed.
   Both look for the files from the project's folder. */
#ifndef TEXT_EXAMPLES_H
#define TEXT_EXAMPLES_H

/* examples/bench.txt is examples/bench.pattern, and written as it is, and so it is with the text that has !=;
   examples/upload.txt finds its span in examples/upload.block. */
void run_example_texts(void);

/* Of both texts: each byte made each other one, dropped and doubled, each length, each length of the slice; and of
   their patterns each bit and length, and each length of the slice. */
void run_changed_texts(void);

#endif
