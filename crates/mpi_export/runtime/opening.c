
static bool is_text_read(const char *name) {
    FILE *file = strcmp(name, "-") == 0 ? stdin : fopen(name, "rb");
    here = text = fresh((size_t)INPUT_BYTES + 2, 1);
    const size_t length = file ? fread(text, 1, (size_t)INPUT_BYTES + 1, file) : 0;
    if (!file || ferror(file))
        REFUSE("P2 %s", name);
    if (length > INPUT_BYTES)
        REFUSE("E2 TextTooLong");
    for (size_t i = 0; i < length; i++)
        if ((unsigned char)text[i] >= 128)
            REFUSE("E1 NotAscii at %zu", i);
    gifts = fresh(length / 2 + 1, sizeof(*gifts));
    end = text + length;
    return options.memory ? are_lines() : are_values();
}

static bool is_accepted(const char *wrong) {
    if (wrong)
        REFUSE("P1 %s", wrong);
    if ((options.input || options.memory) && !is_text_read(options.memory ? options.memory : options.input))
        return false;
    if (ranks > most_ranks)
        REFUSE("E13 BadWorkers");
    if (options.is_affine && factor % 2 == 0)
        REFUSE("E12 BadMap");
    if (options.input && given > all_cells)
        REFUSE("E11 InputTooLong");
    return true;
}

/* Gives each cell of this rank its value, from rank 0, in parts. */
static void spread(void) {
    static struct gift some[part];
    MPI_Bcast(&given, 1, MPI_UINT64_T, 0, MPI_COMM_WORLD);
    for (uint64_t from = 0; from < given; from += part) {
        const uint64_t few = given - from < part ? given - from : part;
        if (self == 0)
            memcpy(some, gifts + from, few * sizeof(*some));
        MPI_Bcast(some, 2 * (int)few, MPI_UINT64_T, 0, MPI_COMM_WORLD);
        for (uint64_t i = 0; i < few; i++)
            if (module_of(some[i].cell) == self)
                cells[offset_of(some[i].cell)] = some[i].value;
    }
}
