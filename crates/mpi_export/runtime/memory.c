
static bool is_of_name(char it) { return it == '_' || isalnum((unsigned char)it); }
static bool is_of_number(char it) { return it == '-' || isdigit((unsigned char)it); }
static bool is_of_line(char it) { return it != '\n'; }
static bool is_of_code(char it) { return it != '\n' && it != '#'; }

/* These take a byte, and a number, behind white space. Where it isn't there they go past the white space alone. */
static bool takes(char byte) { return past(is_blank), here < end && *here == byte && ++here; }
static bool takes_number(int64_t *number) {
    past(is_blank);
    char *word = here;
    const bool is_taken = is_value(word, past(is_of_number), number);
    here = is_taken ? here : word;
    return is_taken;
}

/* Takes a line: nothing, NAME = VALUES, or NAME[LOW..HIGH] = VALUES. */
static bool is_line(void) {
    past(is_blank);
    const char *name = here;
    const size_t length = past(is_of_name), before = given;
    if (!length && here == end)
        return true;
    const bool is_part = length && takes('[');
    past(is_blank);
    const char *place = here;
    int64_t k = 0, low = 0, high = 0;
    if (!length || (is_part && !(takes_number(&low) && takes('.') && *here == '.' && ++here && takes_number(&high) && takes(']')))
        || !takes('='))
        REFUSE("E3 BadToken at %td", here - text);
    if (!are_values())
        return false;
    while (entries[k].form != entry_end && (strncmp(entries[k].name, name, length) != 0 || entries[k].name[length]))
        k++;
    if (entries[k].form == entry_end)
        REFUSE("E6 UnknownName at %td", name - text);
    if (!is_part)
        low = entries[k].low, high = entries[k].high;
    if ((is_part && entries[k].form == entry_cell) || low > high || cell_of(k, low) == none || cell_of(k, high) == none)
        REFUSE("E6 UnknownName at %td", place - text);
    if (given - before > (uint64_t)high - (uint64_t)low + 1)
        REFUSE("E11 InputTooLong");
    for (uint64_t i = before; i < given; i++)
        gifts[i].cell = cell_of(k, low) + (i - before);
    return true;
}

/* Takes all lines, each without its comment. */
static bool are_lines(void) {
    for (char *const behind = end; here < behind; here++) {
        char *line = here;
        past(is_of_code);
        end = here, here = line;
        if (!is_line())
            return false;
        end = behind;
        past(is_of_line);
    }
    return true;
}
