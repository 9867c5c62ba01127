
/* ---- Values: what an operation gives, and 0 where it faults */
SPARE static inline int64_t failed(uint64_t position, enum place place, int64_t number, enum kind kind) {
    note(position, place, number, kind);
    return 0;
}
SPARE static inline int64_t added(int64_t a, int64_t b, uint64_t position, enum place place, int64_t number) {
    int64_t to;
    return __builtin_add_overflow(a, b, &to) ? failed(position, place, number, overflow) : to;
}
SPARE static inline int64_t subtracted(int64_t a, int64_t b, uint64_t position, enum place place, int64_t number) {
    int64_t to;
    return __builtin_sub_overflow(a, b, &to) ? failed(position, place, number, overflow) : to;
}
SPARE static inline int64_t multiplied(int64_t a, int64_t b, uint64_t position, enum place place, int64_t number) {
    int64_t to;
    return __builtin_mul_overflow(a, b, &to) ? failed(position, place, number, overflow) : to;
}

/* A floor division is by no 0 here, nor by -1. */
SPARE static inline int64_t floored(int64_t a, int64_t b) { return a / b - (a % b != 0 && (a < 0) != (b < 0)); }
SPARE static inline int64_t divided(int64_t a, int64_t b, uint64_t position, enum place place, int64_t number) {
    if (b == 0)
        return failed(position, place, number, divide_by_zero);
    return b == -1 ? subtracted(0, a, position, place, number) : floored(a, b);
}
SPARE static inline int64_t remaining(int64_t a, int64_t b, uint64_t position, enum place place, int64_t number) {
    if (b == 0)
        return failed(position, place, number, divide_by_zero);
    const int64_t rest = b == -1 ? 0 : a % b;
    return rest != 0 && (rest < 0) != (b < 0) ? rest + b : rest;
}
SPARE static inline uint64_t found_cell(int64_t entry, int64_t subscript, uint64_t position, enum place place, int64_t number) {
    const uint64_t cell = cell_of(entry, subscript);
    if (cell == none)
        note(position, place, number, out_of_range);
    return cell;
}
SPARE static inline int64_t value_at(uint64_t cell) { return cell == none ? 0 : cells[cell]; }

/* ---- The range and its masks */
SPARE static void enter_range(int64_t from, int64_t to, uint64_t position) {
    const bool is_wide = from <= to && (uint64_t)to - (uint64_t)from >= PROCS;
    if (is_wide)
        note(position, place_all, 0, too_wide);
    low = from;
    on = levels;
    on->many = is_wide || from > to ? 0 : (size_t)((uint64_t)to - (uint64_t)from) + 1;
    for (const size_t *column = taken_over; *column != no_column; column++)
        memset(columns + *column * PROCS, 0, on->many * sizeof(int64_t));
}

/* Lists who stays and who doesn't; where all do no list is made. */
SPARE static void split(void) {
    const struct level *whole = on++;
    const size_t depth = (size_t)(on - levels);
    if (!stayed[depth]) {
        stayed[depth] = fresh(PROCS, sizeof(uint32_t));
        left[depth] = fresh(PROCS, sizeof(uint32_t));
    }
    size_t kept = 0;
    for (size_t n = 0; n < whole->many; n++) {
        const uint32_t i = whole->list ? whole->list[n] : (uint32_t)n;
        stayed[depth][kept] = left[depth][n - kept] = i;
        kept += stays[n];
    }
    on->many = kept;
    on->list = kept == whole->many ? whole->list : stayed[depth];
    turned[depth] = false;
}
SPARE static void turn(void) {
    const size_t depth = (size_t)(on - levels);
    const struct level *whole = on - 1;
    turned[depth] = !turned[depth];
    on->many = whole->many - on->many;
    on->list = on->many == whole->many ? whole->list : turned[depth] ? left[depth] : stayed[depth];
}
