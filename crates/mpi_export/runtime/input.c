
/* The values that cells begin with, in the order of the text: of two of one cell the last one counts. */
static struct gift {
    uint64_t cell;
    int64_t value;
} *gifts;
static uint64_t given;

/* The text, and the part of it that is left to be read. */
static char *text, *here, *end;

static bool is_blank(char it) { return it == ' ' || it == '\t' || it == '\n' || it == '\r'; }
static bool is_dark(char it) { return !is_blank(it); }

/* Goes past bytes of a kind; how many they were. */
static size_t past(bool (*is_of)(char)) {
    const char *from = here;
    while (here < end && is_of(*here))
        here++;
    return (size_t)(here - from);
}

static bool is_value(const char *word, size_t length, int64_t *value) {
    uint64_t number;
    const bool minus = length && word[0] == '-';
    const bool fits = is_number(word + minus, length - minus, (uint64_t)INT64_MAX + minus, &number);
    *value = (int64_t)(minus ? 0 - number : number);
    return fits;
}

/* Takes all that is left as values, for as many cells from the first one on. */
static bool are_values(void) {
    for (past(is_blank); here < end; past(is_blank)) {
        const char *word = here;
        gifts[given].cell = given;
        if (!is_value(word, past(is_dark), &gifts[given++].value))
            REFUSE("E3 BadToken at %td", word - text);
    }
    return true;
}
