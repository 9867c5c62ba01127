
/* ---- Faults: a rank keeps the least key that it noted */
enum kind { overflow, divide_by_zero, out_of_range, too_wide, read_conflict, write_conflict };
enum place { place_all, place_processor, place_cell };

/* The parts of a key in the order in which keys are compared. A fault at a cell is a conflict. */
enum { key_count, key_position, key_place, key_number, key_kind, key_line, key_parts };
struct key {
    bool is;
    uint64_t of[key_parts];
};

/* A moment of a run: a statement by its count, its line, and a position in it. */
struct moment {
    uint64_t count, line, position;
};

#define SIGN (UINT64_C(1) << 63) /* turned round, numbers below 0 are before others */
static struct key noted = {false, {[key_number] = SIGN}};

static void keep(struct key *least, const struct key *key) {
    int at = 0;
    while (at < key_line && key->of[at] == least->of[at])
        at++;
    if (key->is && (!least->is || key->of[at] < least->of[at]))
        *least = *key;
}

static void note(struct moment at, enum place place, int64_t number, enum kind kind) {
    const struct key key = {true, {at.count, at.position, place, (uint64_t)number ^ SIGN, kind, at.line}};
    keep(&noted, &key);
}

static struct moment now(int64_t position) { return (struct moment){count, line, (uint64_t)position}; }
static void note_at(enum side side, int64_t position, size_t i, enum kind kind) {
    note(now(position), side == of_all ? place_all : place_processor, index_of(side, i), kind);
}
