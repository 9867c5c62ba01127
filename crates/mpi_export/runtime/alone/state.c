
/* ---- The state of a run */
enum { most_masks = 64 };
enum status { status_ended, status_faulted, status_refused, status_bound };

/* The count and the line of statements, and the index of the first processor of the range. */
static uint64_t count, line;
static int64_t low;

/* The active processors: all of the first `many`, or those of a list, ascending. One level for the range, and one for each mask. */
struct level {
    const uint32_t *list;
    size_t many;
};
static struct level levels[most_masks + 1], *on = levels;
static uint32_t *stayed[most_masks + 1], *left[most_masks + 1]; /* who stays active by each mask, and who does not */
static bool turned[most_masks + 1];                              /* whether those that do not are active */

/* The cells, and the first one of each entry. Registers of processors that a statement takes over from one before, by columns. */
static int64_t *cells, *columns;
static uint64_t all_cells, *first_of;
static const uint64_t none = UINT64_MAX;

/* Of each active processor the cell that it writes or reads alone, the value that it writes, and whether it stays active. */
static uint64_t *at_cells;
static int64_t *at_values;
static bool *stays;
static uint32_t *owners; /* of a cell the place, among the active processors, of one that writes or reads it */

static _Noreturn void stop(const char *why) {
    fflush(stdout);
    fprintf(stderr, "%s\n", why);
    exit(status_refused);
}

/* Memory that is all 0, for at least one item. */
static void *fresh(size_t items, size_t size) {
    void *memory = calloc(items ? items : 1, size);
    if (!memory)
        stop("refused E16 OutOfMemory");
    return memory;
}

/* The cell of an entry at a subscript. */
SPARE static inline uint64_t cell_of(int64_t entry, int64_t subscript) {
    const uint64_t past = (uint64_t)subscript - (uint64_t)entries[entry].low;
    const bool is_there = past <= (uint64_t)entries[entry].high - (uint64_t)entries[entry].low;
    return is_there ? first_of[entry] + past : none;
}

/* ---- Faults: the least one of a statement is told, by position, place and kind. Cells are behind processors, these behind all. */
enum place { place_all, place_processor, place_cell };
enum kind { overflow, divide_by_zero, out_of_range, too_wide, read_conflict, write_conflict };
static struct fault {
    bool is;
    uint64_t position;
    enum place place;
    int64_t number;
    enum kind kind;
} noted;

static bool is_before(const struct fault *one, const struct fault *other) {
    if (one->position != other->position)
        return one->position < other->position;
    if (one->place != other->place)
        return one->place < other->place;
    return one->number != other->number ? one->number < other->number : one->kind < other->kind;
}

COLD static void note(uint64_t position, enum place place, int64_t number, enum kind kind) {
    const struct fault fault = {true, position, place, number, kind};
#ifdef _OPENMP
#pragma omp critical
#endif
    if (!noted.is || is_before(&fault, &noted))
        noted = fault;
}
