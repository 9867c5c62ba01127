
/* ---- A send, from the side of the module */
static struct writers *joined; /* the entries of different cells */
static size_t joined_room;
static uint32_t *joined_at;    /* by offset: 1 and the number of the cell's entry among the joined ones, or 0 */
static unsigned char *readers; /* by offset, under exclusive reads: a bit for each read that a processor makes of the cell */

static struct writers put_in(const uint64_t *words) {
    const wide low_half = RULE == rule_sum ? (wide)words[2] : (wide)(int64_t)words[2];
    const wide value = RULE == rule_sum ? (wide)(int64_t)words[3] * ((wide)1 << 64) + low_half : low_half;
    return (struct writers){value, (int64_t)words[1], (uint32_t)(words[0] & cell_bits), words[0] >> CELL_BITS & 1};
}

/* Joins the puts of all ranks for each cell, and leaves in it what its writers come to. */
static void settle_puts(void) {
    uint32_t different = 0;
    joined = grown(joined, &joined_room, got.all / put_words, sizeof(*joined));
    for (int j = 0; j < ranks; j++) {
        for (uint64_t i = 0; i < puts_of(j); i++) {
            const struct writers put = put_in(got.words + got.starts[j] + put_words * i);
            uint32_t *number = &joined_at[offset_of(put.cell)];
            if (*number)
                join(&joined[*number - 1], &put);
            else
                joined[(*number = ++different) - 1] = put;
        }
    }
    for (const struct writers *it = joined; it < joined + different; it++) {
        const uint32_t offset = offset_of(it->cell);
        joined_at[offset] = 0;
        if (RULE == rule_sum && (it->value < INT64_MIN || it->value > INT64_MAX))
            note(put_at, place_cell, it->cell, overflow);
        else if (it->is_conflict)
            note(put_at, place_cell, it->cell, write_conflict);
        else
            cells[offset] = (int64_t)it->value;
    }
}

/* Notes which processors read together. */
static void note_readers(uint64_t word) {
    const uint64_t cell = word & cell_bits, number = word >> CELL_BITS & (most_reads - 1);
    unsigned char *bits = &readers[offset_of(cell)];
    if (reads[number].side == of_all)
        return;
    if (word >> (CELL_BITS + 3) & 1 || *bits >> number & 1)
        note(reads[number].at, place_cell, (int64_t)cell, read_conflict);
    *bits |= (unsigned char)(1 << number);
}

/* Lays out the answers. */
static void answer_asks(void) {
    for (int j = 0; j < ranks; j++) {
        sent.lengths[j] = got.lengths[j] - (int)(put_words * puts_of(j));
        for (int i = got.lengths[j] - sent.lengths[j]; RULE == rule_erew && i < got.lengths[j]; i++)
            note_readers(got.words[got.starts[j] + i]);
    }
    lay_out(&sent);
    for (int j = 0; j < ranks; j++) {
        const uint64_t *words = got.words + got.starts[j] + put_words * puts_of(j);
        for (int i = 0; i < sent.lengths[j]; i++) {
            const uint32_t offset = offset_of(words[i] & cell_bits);
            sent.words[sent.starts[j] + i] = (uint64_t)cells[offset];
            if (RULE == rule_erew)
                readers[offset] = 0;
        }
    }
}

/* Exchanges what is held. Whether the run is over: never where a put is held. */
static bool is_over_at_send(void) {
    pack();
    if (exchange(for_send, false) && !is_put_held)
        return true;
    settle_puts();
    answer_asks();
    is_put_held = false;
    writes = 0;
    memset(puts_to, 0, sizeof(puts_to)), memset(asks_to, 0, sizeof(asks_to));
    return false;
}
