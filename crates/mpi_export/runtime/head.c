/* A plan for the bulk-synchronous machine, as a program in C11 over MPI.
 *
 *     mpicc -O3 -Wall -Wextra -pedantic plan.c -o plan
 *     mpirun -n 4 ./plan [--input FILE | --memory FILE] [--bound N] [--map identity|affine:A,B] [--trace [--outcome]]
 *
 * It runs on 1 to 1,024 ranks, and writes what `pramc run` writes, with --trace what `pramc trace` writes, and ends with the
 * same status: 0 it ended, 1 it faulted, 2 it was refused, 3 it met the bound. Input and output are rank 0's. The words that
 * ranks exchange, values, faults and counts are those of docs/MACHINE.md.
 *
 * What C, its compiler and MPI do isn't proved: the plan is, and that its words stand below. */
#include <ctype.h>
#include <inttypes.h>
#include <mpi.h>
#include <stdbool.h>
#include <stdio.h>
#include <stdlib.h>
#include <string.h>

enum rule { rule_erew, rule_crew, rule_common, rule_priority, rule_sum };

/* A shared declaration: a single cell, which has the subscript 0, or an array with its least and its greatest subscript. */
struct entry {
    enum { entry_cell, entry_array, entry_end } form;
    const char *name;
    int64_t low, high;
};

/* The words of instructions, as in a listing. */
enum word {
    op_mark, op_uset, op_pset, op_ucopy, op_pcopy, op_uneg, op_pneg, op_uadd, op_padd, op_usub, op_psub, op_umul, op_pmul,
    op_udiv, op_pdiv, op_umod, op_pmod, op_ueq, op_peq, op_ult, op_plt, op_ule, op_ple, op_uand, op_pand, op_uor, op_por,
    op_unot, op_pnot, op_pfrom, op_pindex, op_enter, op_leave, op_mask, op_flip, op_unmask, op_uask, op_pask, op_uput, op_pput,
    op_send, op_reply, op_vote, op_print, op_jump, op_jzero, op_halt
};

/* How many bits of a word a cell's number has, and the most bytes of an input, as the limits of the language are. For larger
 * arrays raise them: CELL_BITS to at most 31, and 2 to that power is at least the number of all cells. */
#define CELL_BITS 20
#define INPUT_BYTES 1048576
_Static_assert(CELL_BITS >= 1 && CELL_BITS <= 31, "CELL_BITS is from 1 to 31");

/* The plan. PROCS, the most processors of a range, and the bounds of arrays may be raised. The instructions are for the sizes
 * that the program was compiled for, and name entries, registers and each other by number: leave them as they are. */
