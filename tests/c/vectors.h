/* The test vectors in print, to which the model is held before anything is compared with it. */
#ifndef VECTORS_H
#define VECTORS_H

/* Ends the program at the first difference. */
void check_vectors(void);

#endif
