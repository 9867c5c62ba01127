
/* ---- What is held, in the order in which cells were first named: the writes of one put, and up to eight reads */
static struct writers *held;
static uint32_t writes;
static bool is_put_held;
static struct moment put_at;

/* A cell that is asked for: the word, the rank that has it, and the place of its answer among those of that rank. */
static struct {
    uint64_t word;
    uint32_t place;
    int module;
} *list;
static uint32_t listed, asks_to[most_ranks];

static struct read {
    enum side side;
    int64_t to;
    struct moment at;
    uint32_t *asked; /* by processor: the number of its cell in the list, or none */
} reads[most_reads];
static size_t asks;

static inline void hold_write(uint32_t cell, int64_t index, int64_t value) {
    const struct writers one = {value, index, cell, false};
    const uint32_t number = met(cell, writes);
    if (number < writes)
        join(&held[number], &one);
    else
        held[writes++] = one, puts_to[module_of(cell)]++;
}

/* A uniform write is rank 0's alone. */
static void put(enum side side, int64_t entry, int64_t subscript, int64_t value, int64_t position) {
    const int64_t *at = column(side, subscript), *what = column(side, value);
    is_put_held = true;
    put_at = now(position);
    next_turn();
    EACH_ACTING(side,
        const uint32_t cell = cell_of(entry, at[i]);
        if (cell == none)
            note_at(side, position, i, out_of_range);
        else if (side == of_each || self == 0)
            hold_write(cell, index_of(side, i), what[i]);
    )
}

/* The number in the list of a cell that is asked for by a read. */
static inline uint32_t list_ask(uint32_t cell, uint64_t read) {
    const uint32_t number = met(cell, listed);
    if (number < listed) {
        list[number].word |= UINT64_C(1) << (CELL_BITS + 3); /* two processors ask */
        return number;
    }
    list[listed].word = cell | read << CELL_BITS;
    list[listed].module = module_of(cell);
    list[listed].place = asks_to[list[listed].module]++;
    return listed++;
}

static void ask(enum side side, int64_t to, int64_t entry, int64_t subscript, int64_t position) {
    const int64_t *at = column(side, subscript);
    int64_t *d = column(side, to);
    uint32_t *asked = reads[asks].asked;
    reads[asks] = (struct read){side, to, now(position), asked};
    next_turn();
    EACH_ACTING(side,
        const uint32_t cell = cell_of(entry, at[i]);
        asked[i] = cell == none ? none : list_ask(cell, asks);
        if (cell == none)
            note_at(side, position, i, out_of_range), d[i] = 0;
    )
    asks++;
}
