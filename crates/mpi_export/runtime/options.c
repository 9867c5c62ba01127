
/* ---- The command line and the input, which rank 0 judges for all */
static struct {
    const char *input, *memory;
    uint64_t bound;
    bool is_affine;
} options = {NULL, NULL, 1000000, false};

#define REFUSE(...) return fprintf(stderr, "refused " __VA_ARGS__), fputc('\n', stderr), false

/* Whether a text is decimal digits, of a number that is at most `most`. */
static bool is_number(const char *text, size_t length, uint64_t most, uint64_t *number) {
    *number = 0;
    for (size_t i = 0; i < length; i++) {
        const uint64_t digit = (uint64_t)(text[i] - '0');
        if (digit > 9 || *number > (most - digit) / 10)
            return false;
        *number = 10 * *number + digit;
    }
    return length > 0;
}
static bool is_word_number(const char *word, uint64_t *number) { return is_number(word, strlen(word), UINT32_MAX, number); }

static bool is_map(const char *word) {
    const char *comma = strchr(word, ',');
    options.is_affine = strcmp(word, "identity") != 0;
    return !options.is_affine || (strncmp(word, "affine:", 7) == 0 && comma && is_word_number(comma + 1, &shift)
        && is_number(word + 7, (size_t)(comma - word) - 7, UINT32_MAX, &factor));
}

/* Takes the words of the command line; the one that is refused, or null. */
static const char *wrong_word(char **word) {
    bool is_told = false;
    for (const char *option = *++word; option; option = *++word) {
        if (strcmp(option, "--trace") == 0)
            tracing = true;
        else if (strcmp(option, "--outcome") == 0)
            is_told = true;
        else if (!word[1])
            return option;
        else if (strcmp(option, "--input") == 0)
            options.input = *++word;
        else if (strcmp(option, "--memory") == 0)
            options.memory = *++word;
        else if (strcmp(option, "--bound") == 0 && !is_word_number(*++word, &options.bound))
            return *word;
        else if (strcmp(option, "--map") == 0 ? !is_map(*++word) : strcmp(option, "--bound") != 0)
            return *word;
    }
    is_silent = tracing && !is_told;
    return options.input && options.memory ? "--memory" : NULL;
}
