
/* ---- Exchanges: to each rank a header and words, and from each rank */
enum { header_words = 5 }; /* the four of a header, and how many words the message has */

static struct box {
    uint64_t headers[header_words * most_ranks], *words, all;
    int lengths[most_ranks], starts[most_ranks];
    size_t words_room;
} sent, got;

/* What an exchange is for. Only a send and a reply have words. */
enum purpose { for_send, for_reply, for_vote, for_close };
static bool tracing, is_silent; /* whether exchanges are told, and whether the outcome isn't */
static bool any_active;         /* whether a header of the last exchange had an active processor, */
static struct key least;        /* and the least key of its headers */
static uint64_t exchanges;
static uint64_t puts_to[most_ranks]; /* the puts that are held, by the rank that they go to */

static uint64_t halves(uint64_t first, uint64_t second) { return (first & UINT32_MAX) | second << 32; }
static uint64_t *header_of(struct box *box, int rank) { return box->headers + header_words * rank; }
static uint64_t puts_of(int rank) { return header_of(&got, rank)[2] >> 32; }

static void write_header(uint64_t *header, uint64_t puts, bool is_active, int length) {
    const uint64_t *of = noted.of, is_conflict = of[key_place] == place_cell;
    header[0] = halves(of[key_count], of[key_position]);
    header[1] = of[key_number] ^ SIGN;
    header[2] = halves(of[key_line], puts);
    header[3] = noted.is | is_conflict << 1 | of[key_kind] << 2 | of[key_place] << 5 | (uint64_t)is_active << 9;
    header[4] = (uint64_t)length;
}

static void read_header(int rank) {
    const uint64_t *header = header_of(&got, rank);
    const struct key key = {header[3] & 1, {header[0] & UINT32_MAX, header[0] >> 32, header[3] >> 5 & 3, header[1] ^ SIGN,
        header[3] >> 2 & 7, header[2] & UINT32_MAX}};
    keep(&least, &key);
    any_active = any_active || (header[3] >> 9 & 1);
    got.lengths[rank] = (int)header[4];
}

/* Where each message starts, and room for their words. */
static void lay_out(struct box *box) {
    box->all = 0;
    for (int j = 0; j < ranks; j++) {
        box->starts[j] = (int)box->all;
        box->all += (size_t)box->lengths[j];
        if (box->all > INT32_MAX)
            stop("more words in an exchange than MPI counts");
    }
    box->words = grown(box->words, &box->words_room, box->all, sizeof(uint64_t));
}

/* A line of the trace: the words of each rank. */
static void trace(enum purpose purpose) {
    static const char *const told[] = {"send", "reply", "vote", "close"};
    static uint64_t words[2 * most_ranks];
    uint64_t most = 0;
    MPI_Gather(&sent.all, 1, MPI_UINT64_T, words, 1, MPI_UINT64_T, 0, MPI_COMM_WORLD);
    MPI_Gather(&got.all, 1, MPI_UINT64_T, words + ranks, 1, MPI_UINT64_T, 0, MPI_COMM_WORLD);
    if (self != 0)
        return;
    printf("%" PRIu64 " %s", exchanges, told[purpose]);
    for (int i = 0; i < 2 * ranks; i++) {
        printf("%s %" PRIu64, i == 0 ? " sent" : i == ranks ? " received" : "", words[i]);
        most = words[i] > most ? words[i] : most;
    }
    printf(" h %" PRIu64 "\n", most);
}

/* Exchanges headers, and at a send or a reply the words of `sent`, which is laid out. Whether the run is over: a statement before
 * this one has faulted. */
static bool exchange(enum purpose purpose, bool is_active) {
    const bool has_words = purpose == for_send || purpose == for_reply;
    sent.all = has_words ? sent.all : 0;
    for (int j = 0; j < ranks; j++)
        write_header(header_of(&sent, j), puts_to[j], is_active, has_words ? sent.lengths[j] : 0);
    MPI_Alltoall(sent.headers, header_words, MPI_UINT64_T, got.headers, header_words, MPI_UINT64_T, MPI_COMM_WORLD);
    least.is = any_active = false;
    for (int j = 0; j < ranks; j++)
        read_header(j);
    lay_out(&got);
    if (has_words)
        MPI_Alltoallv(sent.words, sent.lengths, sent.starts, MPI_UINT64_T, got.words, got.lengths, got.starts, MPI_UINT64_T,
            MPI_COMM_WORLD);
    exchanges++;
    if (tracing)
        trace(purpose);
    return least.is && least.of[key_count] < count;
}
