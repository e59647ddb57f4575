/* What is printed on standard output, taken as a text (captured.c). */
#ifndef CAPTURED_H
#define CAPTURED_H

/* From here on what is printed is kept, until it is taken as a text, to be freed. Answer 0 and NULL where there is no
   memory for it. */
int begin_capture(void);
char *end_capture(void);

#endif
