/* Where Linux's reader does otherwise than a reader that keeps to the standard: each case is played, and is a line. */
#ifndef DIFFERENCES_H
#define DIFFERENCES_H

/* How many cases ended otherwise than is written here. */
unsigned play_differences(void);

#endif
