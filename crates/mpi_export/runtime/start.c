
static void take_cells(void) {
    first_of = fresh(sizeof(entries) / sizeof(entries[0]), sizeof(uint64_t));
    for (size_t k = 0; entries[k].form != entry_end; k++) {
        first_of[k] = all_cells;
        all_cells += size_of(&entries[k]);
    }
    for (all_places = 1; all_places < all_cells; all_places *= 2)
        ;
    if (all_places > cell_bits + 1)
        stop("more cells than CELL_BITS has room for");
    const uint64_t own_places = (all_places + (uint64_t)ranks - 1 - (uint64_t)self) / (uint64_t)ranks;
    cells = fresh(own_places, sizeof(int64_t));
    joined_at = fresh(own_places, sizeof(uint32_t));
    readers = fresh(RULE == rule_erew ? own_places : 0, 1);
}

/* Takes memory for as many reads and masks as are at once on; verified code has at most 8 and 64. */
static void take_processors(void) {
    size_t here = 0, most = 1, lists_of = 1;
    for (size_t i = 0; i < sizeof(plan) / sizeof(plan[0]); i++) {
        const int64_t word = plan[i][0];
        here = word == op_send ? 0 : here + (word == op_uask || word == op_pask);
        most = here > most && here <= most_reads ? here : most;
        lists_of += word == op_mask && lists_of <= most_masks;
    }
    room = ((size_t)PROCS + (size_t)ranks - 1) / (size_t)ranks;
    uniform = fresh(UNIFORM, sizeof(int64_t));
    registers = fresh((size_t)PRIVATE * room, sizeof(int64_t));
    levels[0].list = lists = fresh(lists_of * room, sizeof(uint32_t));
    for (size_t i = 0; i < room; i++)
        lists[i] = (uint32_t)i;
    others = fresh(room, sizeof(uint32_t));
    held = fresh(room, sizeof(*held));
    for (size_t k = 0; k < most; k++)
        reads[k].asked = fresh(room, sizeof(uint32_t));
    list = fresh(most * room, sizeof(*list));
    for (last_place = 1; (size_t)last_place + 1 < 2 * room;)
        last_place = 2 * last_place + 1;
    table = fresh((size_t)last_place + 1, sizeof(*table));
}

int main(int words, char **word) {
    int status = status_refused;
    MPI_Init(&words, &word);
    MPI_Comm_size(MPI_COMM_WORLD, &ranks);
    MPI_Comm_rank(MPI_COMM_WORLD, &self);
    inverse = UINT64_MAX / (uint64_t)ranks;
    take_cells();
    const char *wrong = wrong_word(word);
    bool is_fine = self == 0 && is_accepted(wrong);
    MPI_Bcast(&is_fine, 1, MPI_C_BOOL, 0, MPI_COMM_WORLD);
    if (is_fine) {
        take_processors();
        spread();
        status = run();
    }
    if (self == 0 && (fflush(stdout) != 0 || ferror(stdout)))
        fputs("refused E17 WriteFailed\n", stderr), status = status_refused;
    MPI_Bcast(&status, 1, MPI_INT, 0, MPI_COMM_WORLD);
    MPI_Finalize();
    return status;
}
