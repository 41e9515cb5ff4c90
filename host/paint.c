#define _DEFAULT_SOURCE
#include "paint.h"

#include <stdint.h>
#include <stdio.h>
#include <stdlib.h>
#include <string.h>
#include <ucontext.h>

static uint8_t stack[STACK];
static ucontext_t here, there;

size_t deeper(size_t a, size_t b) { return a > b ? a : b; }

/* Runs it on a stack painted with this byte; how many bytes were in use. */
static size_t painted(void (*run)(void), uint8_t paint, const char *name) {
  memset(stack, paint, STACK);
  getcontext(&there);
  there.uc_stack.ss_sp = stack;
  there.uc_stack.ss_size = STACK;
  there.uc_link = &here;
  makecontext(&there, run, 0);
  swapcontext(&here, &there);
  size_t low = 0;
  while (low < STACK && stack[low] == paint) low++;
  if (low) return STACK - low;
  fprintf(stderr, "yokepear_%s: more than %d bytes of stack\n", name, STACK);
  exit(1);
}

/* A byte that happens to be the paint is seen with the other paint. */
size_t stack_used(void (*run)(void), const char *name) {
  return deeper(painted(run, 0xa5, name), painted(run, 0x5a, name));
}
