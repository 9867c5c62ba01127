
/* ---- The outcome */
static bool is_pending; /* a number is printed once its statement is over without a fault */
static int64_t pending;

static void print_pending(void) {
    if (is_pending && !options.show)
        printf("%" PRId64 "\n", pending);
    is_pending = false;
}
SPARE static void print_later(int64_t value) {
    print_pending();
    pending = value;
    is_pending = true;
}

static void write_entry(const struct entry *entry, uint64_t first) {
    if (entry->form == entry_array)
        printf("%s[%" PRId64 "..%" PRId64 "] =", entry->name, entry->low, entry->high);
    else
        printf("%s =", entry->name);
    for (uint64_t i = 0; i < size_of(entry); i++)
        printf(" %" PRId64, cells[first + i]);
    printf("\n");
}

/* A cell by its name, as a[4]. */
static void write_cell(uint64_t cell) {
    size_t at = 0;
    while (entries[at + 1].form != entry_end && first_of[at + 1] <= cell)
        at++;
    printf("%s", entries[at].name);
    if (entries[at].form == entry_array)
        printf("[%" PRId64 "]", entries[at].low + (int64_t)(cell - first_of[at]));
}

static void write_fault(void) {
    static const char *const words[] = {"overflow", "divide-by-zero", "out-of-range", "too-wide", "read-conflict", "write-conflict"};
    printf("fault %s ", words[noted.kind]);
    if (noted.place == place_cell)
        write_cell((uint64_t)noted.number);
    else if (noted.place == place_processor)
        printf("processor %" PRId64, noted.number);
    else
        printf("all");
    printf(" line %" PRIu64 "\n", line);
}

/* Writes what is left of the outcome; where a fault was noted that is it. */
static enum status closed(enum status status) {
    if (noted.is) {
        write_fault();
        return status_faulted;
    }
    print_pending();
    if (status != status_ended || !options.show)
        puts(status == status_ended ? "ended" : "goes on");
    for (size_t k = 0; status == status_ended && !options.is_quiet && entries[k].form != entry_end; k++)
        if (!options.show || is_in(options.show, entries[k].name))
            write_entry(&entries[k], first_of[k]);
    return status;
}
