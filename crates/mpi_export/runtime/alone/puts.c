
/* ---- Writes of a statement, and reads that have to be alone. Each active processor leaves its place at its cell: who finds another
 * one's there isn't alone. */
#ifdef _OPENMP
#define IN_THREADS _Pragma("omp parallel for schedule(static)")
#define SET_OWNER(cell, n) __atomic_store_n(&owners[cell], (uint32_t)(n), __ATOMIC_RELAXED)
#else
#define IN_THREADS
#define SET_OWNER(cell, n) owners[cell] = (uint32_t)(n)
#endif

SPARE static void take_owners(void) {
    const size_t many = on->many;
    IN_THREADS
    for (size_t n = 0; n < many; n++)
        if (at_cells[n] != none)
            SET_OWNER(at_cells[n], n);
}

SPARE static void note_readers(uint64_t position) {
    const size_t many = on->many;
    take_owners();
    IN_THREADS
    for (size_t n = 0; n < many; n++)
        if (at_cells[n] != none && owners[at_cells[n]] != n)
            note(position, place_cell, (int64_t)at_cells[n], read_conflict);
}

/* Every cell gets its writer's value; under `common` the same value by several. */
SPARE static void settle_alone(uint64_t position) {
    const size_t many = on->many;
    take_owners();
    IN_THREADS
    for (size_t n = 0; n < many; n++) {
        const uint64_t cell = at_cells[n];
        if (cell == none)
            continue;
        const uint32_t owner = owners[cell];
        if (owner == n)
            cells[cell] = at_values[n];
        else if (RULE != rule_common || at_values[owner] != at_values[n])
            note(position, place_cell, (int64_t)cell, write_conflict);
    }
}

/* The least processor comes last. */
SPARE static void settle_by_priority(void) {
    for (size_t n = on->many; n-- > 0;)
        if (at_cells[n] != none)
            cells[at_cells[n]] = at_values[n];
}

/* The owner of a cell has the sum of all values for it, in 128 bits. */
__extension__ typedef __int128 wide;
static wide *sums;
SPARE static void settle_sums(uint64_t position) {
    const size_t many = on->many;
    if (!sums)
        sums = fresh(PROCS, sizeof(wide));
    take_owners();
    for (size_t n = 0; n < many; n++)
        sums[n] = 0;
    for (size_t n = 0; n < many; n++)
        if (at_cells[n] != none)
            sums[owners[at_cells[n]]] += at_values[n];
    for (size_t n = 0; n < many; n++) {
        const uint64_t cell = at_cells[n];
        if (cell == none || owners[cell] != n)
            continue;
        if (sums[n] < INT64_MIN || sums[n] > INT64_MAX)
            note(position, place_cell, (int64_t)cell, overflow);
        else
            cells[cell] = (int64_t)sums[n];
    }
}

SPARE static void settle_puts(uint64_t position) {
    if (RULE == rule_priority)
        settle_by_priority();
    else if (RULE == rule_sum)
        settle_sums(position);
    else
        settle_alone(position);
}
