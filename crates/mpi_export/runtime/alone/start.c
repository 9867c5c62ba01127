
int main(int words, char **word) {
    (void)words;
    take_memory();
    if (!is_accepted(wrong_word(word)))
        return status_refused;
    int status = (int)run();
    if (fflush(stdout) != 0 || ferror(stdout))
        fputs("refused E17 WriteFailed\n", stderr), status = status_refused;
    return status;
}
