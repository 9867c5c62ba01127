
/* ---- What a rank has */
enum { most_ranks = 1024, most_reads = 8, most_masks = 64, part = 8192 };
enum status { status_ended, status_faulted, status_refused, status_bound };
__extension__ typedef __int128 wide; /* sums of 64-bit values */
static int ranks, self;

/* The uniform part, which all ranks have alike: the count and the line of statements, the registers, the least index. */
static uint64_t count, line;
static int64_t *uniform, low;

/* This rank's processors are `own`, with room for `room`: the v-th of the range is rank v mod ranks'. Register r of the i-th is
 * column(of_each, r)[i]. */
static int64_t *registers;
static size_t room, own;

/* Those that are active, ascending: a list for the range, and one more for each mask that is on. */
static struct level {
    uint32_t *list;
    size_t many;
} levels[most_masks + 1], *on = levels;
static uint32_t *lists, *others; /* the lists, each with `room` places; and a place for one while it is made */

/* This rank's cells by offset, and the map of all cells to all places: factor * cell + shift. */
static int64_t *cells;
static uint64_t all_cells, all_places, *first_of, factor = 1, shift = 0, inverse;
static const uint64_t cell_bits = (UINT64_C(1) << CELL_BITS) - 1;
static const uint32_t none = UINT32_MAX;

static _Noreturn void stop(const char *why) {
    fprintf(stderr, "%s\n", why);
    MPI_Abort(MPI_COMM_WORLD, status_refused);
    exit(status_refused);
}

/* Memory that is all 0, for at least one item. */
static void *fresh(size_t items, size_t size) {
    void *memory = calloc(items ? items : 1, size);
    if (!memory)
        stop("refused E16 OutOfMemory");
    return memory;
}

/* Memory with room for so many items, in the place of one that has too little. What stood there is lost. */
static void *grown(void *memory, size_t *room_there, size_t needs, size_t size) {
    if (memory && needs <= *room_there)
        return memory;
    free(memory);
    *room_there = needs + needs / 2;
    return fresh(*room_there, size);
}

/* Instructions are of the uniform side, where all processors act as one, whose number is 0; or of the private one. */
enum side { of_all, of_each };

static int64_t *column(enum side side, int64_t number) {
    return side == of_all ? uniform + number : registers + (size_t)number * room;
}
static int64_t index_of(enum side side, size_t i) {
    return side == of_all ? 0 : (int64_t)((uint64_t)low + i * (uint64_t)ranks + (uint64_t)self);
}

/* Does this for each processor i that acts; where all do, by a loop without a list. */
#define EACH_ACTING(side, ...) \
    const size_t acting = side == of_all ? 1 : on->many; \
    const uint32_t *const those = on->list; \
    if (side == of_all || acting == own) \
        for (size_t i = 0; i < acting; i++) { __VA_ARGS__ } \
    else \
        for (size_t n = 0; n < acting; n++) { const size_t i = those[n]; __VA_ARGS__ }

/* The map's number of a cell, its offset in its module, and the module: number / ranks is a product with the inverse. */
static uint32_t number_of(uint64_t cell) { return (uint32_t)((factor * cell + shift) & (all_places - 1)); }
static uint32_t offset_of(uint64_t cell) { return (uint32_t)((wide)(number_of(cell) + UINT64_C(1)) * inverse >> 64); }
static int module_of(uint64_t cell) { return (int)(number_of(cell) - offset_of(cell) * (uint32_t)ranks); }

/* The cell of an entry at a subscript. */
static uint32_t cell_of(int64_t entry, int64_t subscript) {
    const uint64_t past = (uint64_t)subscript - (uint64_t)entries[entry].low;
    const bool is_there = past <= (uint64_t)entries[entry].high - (uint64_t)entries[entry].low;
    return is_there ? (uint32_t)(first_of[entry] + past) : none;
}
