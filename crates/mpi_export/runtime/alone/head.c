/* A plan for the bulk-synchronous machine, as a program in C11 of one memory: no workers and no messages.
 *
 *     cc -O3 plan.c -o plan                  one thread
 *     cc -O3 -fopenmp plan.c -o plan         as many threads as OMP_NUM_THREADS says
 *     ./plan [--input FILE | --memory FILE] [--bound N] [--show NAMES | --quiet]
 *
 * It writes what `pramc run` writes, and ends with the same status: 0 it ended, 1 it faulted, 2 it was refused, 3 it met the bound.
 * Each instruction of the plan is a call of its word below. What C and its compiler make of it isn't proved: the plan is, and that its
 * words stand below. */
#include <ctype.h>
#include <inttypes.h>
#include <stdbool.h>
#include <stdio.h>
#include <stdlib.h>
#include <string.h>

/* The rules, for the preprocessor too. */
#define rule_erew 0
#define rule_crew 1
#define rule_common 2
#define rule_priority 3
#define rule_sum 4

/* A shared declaration: a single cell, which has the subscript 0, or an array with its least and its greatest subscript. */
struct entry {
    enum { entry_cell, entry_array, entry_end } form;
    const char *name;
    int64_t low, high;
};

/* What need not be used by each plan. */
#if defined(__GNUC__)
#pragma GCC diagnostic ignored "-Wunused-variable"
#pragma GCC diagnostic ignored "-Wunused-but-set-variable"
#define SPARE __attribute__((unused))
#define COLD __attribute__((cold, noinline))
#else
#define SPARE
#define COLD
#endif

/* The most bytes of an input, as the limit of the language is: for larger ones give another number. */
#ifndef INPUT_BYTES
#define INPUT_BYTES 1048576
#endif

/* What ends the table of columns. */
#define no_column SIZE_MAX
