/*
 * The stack that a call takes: it runs on a painted one, and what was painted over is looked for
 * afterwards. Counted from the call's return address downwards, memcpy included.
 */
#ifndef PAINT_H
#define PAINT_H

#include <stddef.h>

/* The stack is painted and searched for each run, so it is not much larger than calls need. */
enum { STACK = 1 << 17, ADDRESS = sizeof(void *) };

/* Settings that are taken and not looked at, for calls that do nothing: what asking takes. */
#define FR_UNUSED uint32_t a, uint32_t b, uint32_t c
#define UK_UNUSED FR_UNUSED, uint32_t d, uint32_t e
#define IGNORE_FR (void)a, (void)b, (void)c
#define IGNORE_UK IGNORE_FR, (void)d, (void)e

/* How many bytes of stack are in use when this runs, with all that it calls; the call's name. */
size_t stack_used(void (*run)(void), const char *name);

/* The larger of two. */
size_t deeper(size_t a, size_t b);

/* Prints the deepest stack use of each call on tallies; that of the deepest. */
size_t show_tallies(void);

#endif
