
/* ---- The words of instructions, as they stand in the plan. Those that begin with p are for each active processor: n is its place among
 * these, i its number in the range, and me its index. */
#define REGISTER(u) int64_t u = 0; (void)u;
#define COLUMN(c, k) int64_t *const restrict c = columns + (size_t)(k) * PROCS; (void)c;
#define EACH \
    { \
        const struct level these = *on; \
        const int64_t first = low; \
        IN_THREADS \
        for (size_t n = 0; n < these.many; n++) { \
            const size_t i = these.list ? these.list[n] : n; \
            int64_t me = (int64_t)((uint64_t)first + i); \
            (void)me;
#define END } }
#define OF_EACH place_processor, me
#define OF_ALL place_all, 0

#define mark(l) \
    if (noted.is || count == options.bound) \
        return closed(status_bound); \
    print_pending(); \
    count++; \
    line = l;
#define uset(d, a) d = a;
#define pset(d, a) d = a;
#define ucopy(d, a) d = a;
#define pcopy(d, a) d = a;
#define pfrom(d, a) d = a;
#define pindex(d) d = (int64_t)((uint64_t)first + i);
#define uneg(d, a, p) d = subtracted(0, a, p, OF_ALL);
#define pneg(d, a, p) d = subtracted(0, a, p, OF_EACH);
#define uadd(d, a, b, p) d = added(a, b, p, OF_ALL);
#define padd(d, a, b, p) d = added(a, b, p, OF_EACH);
#define usub(d, a, b, p) d = subtracted(a, b, p, OF_ALL);
#define psub(d, a, b, p) d = subtracted(a, b, p, OF_EACH);
#define umul(d, a, b, p) d = multiplied(a, b, p, OF_ALL);
#define pmul(d, a, b, p) d = multiplied(a, b, p, OF_EACH);
#define udiv(d, a, b, p) d = divided(a, b, p, OF_ALL);
#define pdiv(d, a, b, p) d = divided(a, b, p, OF_EACH);
#define umod(d, a, b, p) d = remaining(a, b, p, OF_ALL);
#define pmod(d, a, b, p) d = remaining(a, b, p, OF_EACH);
#define ueq(d, a, b) d = a == b;
#define peq(d, a, b) d = a == b;
#define ult(d, a, b) d = a < b;
#define plt(d, a, b) d = a < b;
#define ule(d, a, b) d = a <= b;
#define ple(d, a, b) d = a <= b;
#define uand(d, a, b) d = a != 0 && b != 0;
#define pand(d, a, b) d = a != 0 && b != 0;
#define uor(d, a, b) d = a != 0 || b != 0;
#define por(d, a, b) d = a != 0 || b != 0;
#define unot(d, a) d = a == 0;
#define pnot(d, a) d = a == 0;
#define enter(a, b, p) enter_range(a, b, p);
#define leave() on->many = 0;
#define mask(a) stays[n] = a != 0; END split();
#define flip() turn();
#define unmask() on--;
#define uask(d, c, s, p) d = value_at(found_cell(c, s, p, OF_ALL));
#define uput(c, s, v, p) \
    { \
        const uint64_t cell = found_cell(c, s, p, OF_ALL); \
        if (cell != none) \
            cells[cell] = v; \
    }
#define pput(c, s, v, p) at_cells[n] = found_cell(c, s, p, OF_EACH); at_values[n] = v; END settle_puts(p);
#if RULE == rule_erew
#define pask(d, c, s, p) \
    at_cells[n] = found_cell(c, s, p, OF_EACH); \
    d = value_at(at_cells[n]); \
    END note_readers(p);
#else
#define pask(d, c, s, p) d = value_at(found_cell(c, s, p, OF_EACH));
#endif
#define send()
#define reply()
#define vote(d) d = on->many > 0;
#define print(a) print_later(a);
#define jump(t) goto L##t;
#define jzero(a, t) \
    if (a == 0) \
        goto L##t;
#define halt() return closed(status_ended);
