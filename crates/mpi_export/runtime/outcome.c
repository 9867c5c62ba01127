
/* ---- The outcome, which rank 0 writes */
static struct item {
    uint64_t count;
    int64_t value;
} *items;
static size_t printed, written, items_room;

static void print(int64_t value) {
    if (self != 0)
        return;
    if (printed == items_room) {
        items_room = 2 * items_room + 64;
        items = realloc(items, items_room * sizeof(*items));
        if (!items)
            stop("refused E16 OutOfMemory");
    }
    items[printed++] = (struct item){count, value};
}

/* Writes the items of all statements before that one. */
static void write_items(uint64_t behind) {
    for (; written < printed && items[written].count < behind; written++)
        printf("%" PRId64 "\n", items[written].value);
    fflush(stdout);
}

static uint64_t size_of(const struct entry *entry) { return (uint64_t)entry->high - (uint64_t)entry->low + 1; }

/* The line of an entry; its values come from all ranks, in parts. */
static void write_entry(const struct entry *entry, uint64_t first) {
    static uint64_t mine[part], all[part];
    const uint64_t behind = first + size_of(entry);
    if (self == 0 && entry->form == entry_array)
        printf("%s[%" PRId64 "..%" PRId64 "] =", entry->name, entry->low, entry->high);
    else if (self == 0)
        printf("%s =", entry->name);
    for (uint64_t from = first; from < behind; from += part) {
        const uint64_t few = behind - from < part ? behind - from : part;
        for (uint64_t i = 0; i < few; i++)
            mine[i] = module_of(from + i) == self ? (uint64_t)cells[offset_of(from + i)] : 0;
        MPI_Reduce(mine, all, (int)few, MPI_UINT64_T, MPI_BOR, 0, MPI_COMM_WORLD);
        for (uint64_t i = 0; self == 0 && i < few; i++)
            printf(" %" PRId64, (int64_t)all[i]);
    }
    if (self == 0)
        printf("\n");
}

/* A cell by its name, as a[4]. */
static void write_cell(uint64_t cell) {
    size_t at = 0;
    while (entries[at + 1].form != entry_end && first_of[at + 1] <= cell)
        at++;
    printf("%s", entries[at].name);
    if (entries[at].form == entry_array)
        printf("[%" PRId64 "]", entries[at].low + (int64_t)(cell - first_of[at]));
}

static void write_fault(void) {
    static const char *const words[] = {"overflow", "divide-by-zero", "out-of-range", "too-wide", "read-conflict",
        "write-conflict"};
    const uint64_t *of = least.of, number = of[key_number] ^ SIGN;
    printf("fault %s ", words[of[key_kind]]);
    if (of[key_place] == place_cell)
        write_cell(number);
    else if (of[key_place] == place_processor)
        printf("processor %" PRId64, (int64_t)number);
    else
        printf("all");
    printf(" line %" PRIu64 "\n", of[key_line]);
}

/* Writes what is left of the outcome of this status; of a faulted run the items that were printed before. */
static enum status told(enum status status) {
    if (is_silent)
        return status;
    write_items(status == status_faulted ? least.of[key_count] : UINT64_MAX);
    if (self == 0 && status == status_faulted)
        write_fault();
    else if (self == 0)
        puts(status == status_ended ? "ended" : "goes on");
    for (size_t k = 0; status == status_ended && entries[k].form != entry_end; k++)
        write_entry(&entries[k], first_of[k]);
    return status;
}

/* The close: at the end or at the bound. First what is held is sent. */
static enum status closed(enum status status) {
    if (is_put_held)
        is_over_at_send();
    exchange(for_close, false);
    return told(least.is ? status_faulted : status);
}
