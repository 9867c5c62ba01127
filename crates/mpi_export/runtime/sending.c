
/* ---- A send and a reply, from the side of the processors */
enum { put_words = RULE == rule_sum ? 4 : 3 };

/* Lays out what is held: to each rank its puts, and behind them its asks. */
static void pack(void) {
    uint64_t *next[most_ranks], *asks_at[most_ranks];
    for (int j = 0; j < ranks; j++) {
        const uint64_t words = put_words * puts_to[j] + asks_to[j];
        sent.lengths[j] = words < INT32_MAX ? (int)words : INT32_MAX;
    }
    lay_out(&sent);
    for (int j = 0; j < ranks; j++) {
        next[j] = sent.words + sent.starts[j];
        asks_at[j] = next[j] + put_words * puts_to[j];
    }
    for (const struct writers *put = held; put < held + writes; put++) {
        uint64_t *words = next[module_of(put->cell)];
        next[module_of(put->cell)] += put_words;
        words[0] = put->cell | (uint64_t)put->is_conflict << CELL_BITS;
        words[1] = (uint64_t)put->index;
        words[2] = (uint64_t)put->value;
        if (RULE == rule_sum)
            words[3] = (uint64_t)(put->value >> 64);
    }
    for (uint32_t i = 0; i < listed; i++)
        asks_at[list[i].module][list[i].place] = list[i].word;
}

static int64_t answer(uint32_t number) { return (int64_t)got.words[(uint32_t)got.starts[list[number].module] + list[number].place]; }

/* Exchanges the answers, which are laid out, and gives them to the registers that wait for them. Whether the run is over. */
static bool is_over_at_reply(void) {
    if (exchange(for_reply, false))
        return true;
    for (const struct read *read = reads; read < reads + asks; read++) {
        const uint32_t *asked = read->asked;
        int64_t *to = column(read->side, read->to);
        EACH_ACTING(read->side, if (asked[i] != none) to[i] = answer(asked[i]);)
    }
    asks = listed = 0;
    return false;
}
