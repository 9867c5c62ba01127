
static bool is_text_read(const char *name) {
    FILE *file = strcmp(name, "-") == 0 ? stdin : fopen(name, "rb");
    here = text = fresh((size_t)INPUT_BYTES + 2, 1);
    const size_t length = file ? fread(text, 1, (size_t)INPUT_BYTES + 1, file) : 0;
    if (!file || ferror(file))
        REFUSE("P2 %s", name);
    if (length > INPUT_BYTES)
        REFUSE("E2 TextTooLong");
    for (size_t i = 0; i < length; i++)
        if ((unsigned char)text[i] >= 128)
            REFUSE("E1 NotAscii at %zu", i);
    gifts = fresh(length / 2 + 1, sizeof(*gifts));
    end = text + length;
    return options.memory ? are_lines() : are_values();
}

/* Whether each name of a list is an entry's. */
static bool are_names(const char *list) {
    for (const char *at = list; at; at = strchr(at, ','), at += at != NULL) {
        const size_t length = strcspn(at, ",");
        size_t k = 0;
        while (entries[k].form != entry_end && (strncmp(entries[k].name, at, length) != 0 || entries[k].name[length]))
            k++;
        if (entries[k].form == entry_end)
            REFUSE("P1 %.*s", (int)length, at);
    }
    return true;
}

static bool is_accepted(const char *wrong) {
    if (wrong)
        REFUSE("P1 %s", wrong);
    if ((options.input || options.memory) && !is_text_read(options.memory ? options.memory : options.input))
        return false;
    if (options.input && given > all_cells)
        REFUSE("E11 InputTooLong");
    for (uint64_t i = 0; i < given; i++)
        cells[gifts[i].cell] = gifts[i].value;
    return are_names(options.show);
}

static uint64_t size_of(const struct entry *entry) { return (uint64_t)entry->high - (uint64_t)entry->low + 1; }

static void take_memory(void) {
    first_of = fresh(sizeof(entries) / sizeof(entries[0]), sizeof(uint64_t));
    for (size_t k = 0; entries[k].form != entry_end; k++) {
        first_of[k] = all_cells;
        all_cells += size_of(&entries[k]);
    }
    cells = fresh(all_cells, sizeof(int64_t));
    owners = fresh(all_cells, sizeof(uint32_t));
    size_t most = 0; /* a column that no plan uses takes no memory that is touched */
    for (const size_t *column = taken_over; *column != no_column; column++)
        most = *column + 1;
    columns = fresh(most * PROCS, sizeof(int64_t));
    at_cells = fresh(PROCS, sizeof(uint64_t));
    at_values = fresh(PROCS, sizeof(int64_t));
    stays = fresh(PROCS, sizeof(bool));
}
