
/* ---- The cells that were met in this turn, each with a number: a table of at least twice as many places as can be met */
static struct met {
    uint32_t cell, turn, number;
} *table;
static uint32_t last_place, turn;

static void next_turn(void) {
    if (++turn == 0) /* once round: what stands there would be taken for this turn's */
        memset(table, 0, ((size_t)last_place + 1) * sizeof(*table)), turn = 1;
}

/* The number of a cell; `next` where it is met for the first time. It is looked for at its own place first. */
static inline uint32_t met(uint32_t cell, uint32_t next) {
    const uint32_t step = (uint32_t)(cell * UINT64_C(0x9E3779B97F4A7C15) >> 32) | 1;
    uint32_t at = cell & last_place;
    while (table[at].turn == turn && table[at].cell != cell)
        at = (at + step) & last_place;
    if (table[at].turn != turn)
        table[at] = (struct met){cell, turn, next};
    return table[at].number;
}

/* ---- The write rules: two entries of one cell, joined */
struct writers {
    wide value;
    int64_t index;
    uint32_t cell;
    bool is_conflict;
};

static void join(struct writers *into, const struct writers *with) {
    if (RULE == rule_sum)
        into->value += with->value;
    else if (RULE == rule_common)
        into->is_conflict = into->is_conflict || with->is_conflict || into->value != with->value;
    else
        into->is_conflict = RULE != rule_priority;
    if (RULE != rule_sum && with->index == into->index && with->value < into->value)
        into->value = with->value;
    if (with->index >= into->index)
        return;
    into->index = with->index;
    into->value = RULE == rule_sum ? into->value : with->value;
}
