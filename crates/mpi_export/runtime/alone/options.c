
/* ---- The command line */
static struct {
    const char *input, *memory, *show;
    uint64_t bound;
    bool is_quiet;
} options = {NULL, NULL, NULL, 1000000, false};

#define REFUSE(...) return fprintf(stderr, "refused " __VA_ARGS__), fputc('\n', stderr), false

/* Whether a text is decimal digits, of a number that is at most `most`. */
static bool is_number(const char *text, size_t length, uint64_t most, uint64_t *number) {
    *number = 0;
    for (size_t i = 0; i < length; i++) {
        const uint64_t digit = (uint64_t)(text[i] - '0');
        if (digit > 9 || *number > (most - digit) / 10)
            return false;
        *number = 10 * *number + digit;
    }
    return length > 0;
}

/* Takes the words of the command line; the one that is refused, or null. */
static const char *wrong_word(char **word) {
    for (const char *option = *++word; option; option = *++word) {
        if (strcmp(option, "--quiet") == 0)
            options.is_quiet = true;
        else if (!word[1])
            return option;
        else if (strcmp(option, "--input") == 0)
            options.input = *++word;
        else if (strcmp(option, "--memory") == 0)
            options.memory = *++word;
        else if (strcmp(option, "--show") == 0)
            options.show = *++word;
        else if (strcmp(option, "--bound") != 0)
            return option;
        else if (++word, !is_number(*word, strlen(*word), UINT32_MAX, &options.bound))
            return *word;
    }
    return options.input && options.memory ? "--memory" : options.show && options.is_quiet ? "--quiet" : NULL;
}

/* Whether a name stands in a list, as a in a,b. */
static bool is_in(const char *list, const char *name) {
    const size_t length = strlen(name);
    for (const char *at = list; at; at = strchr(at, ','), at += at != NULL)
        if (strncmp(at, name, length) == 0 && (at[length] == ',' || at[length] == 0))
            return true;
    return false;
}
