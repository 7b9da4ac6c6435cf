// A call of the product that takes a record beside C programs that do the same, in one process, on the same bytes: for longest/, gangs/ and reason/. Included
// after nodes.h and a typedef of `result`, the struct that the call hands back; its `answer` is 0 or a refusal, and then all else is 0.

// What a call asks beside the record. One that asks nothing has one question. Another defines QUESTIONS, how many it has of a record, and TIMED, how many of
// them, the first, are timed; `choose` draws those of a record, `ask` says which of them the next calls have. The first is answered for every record.
#ifndef QUESTIONS
enum { QUESTIONS = 1, TIMED = 1 };
static inline void choose(const uint8_t *record, size_t length) { (void)record, (void)length; }
static inline void ask(unsigned k) { (void)k; }
#endif

// The product's reading of a record alone, from target/staticlib/libreader_bench.a; all 0 where the bytes are none.
typedef struct { uint64_t count, groups; uint8_t forward[128], reverse[128]; uint16_t hours[128]; } reader_bench_reading;
reader_bench_reading reader_bench_read(const uint8_t *record, size_t record_length);

// A C program writes the struct where it is told to, which is how one of this size is handed back. Of a struct by value gcc would make a copy first.
typedef result entry(const uint8_t *, size_t);
typedef void program(const uint8_t *, size_t, result *);
// What is found, all but the answer, or that the bytes are no record.
typedef int finder(const uint8_t *, size_t, result *);
static inline __attribute__((always_inline)) void answer(finder *find, const uint8_t *record, size_t length, result *r) {
    r->answer = 0;
    if (find(record, length, r)) return;
    clear(r, sizeof *r);
    r->answer = NO_RECORD;
}

// The call; two C programs that find the same in one pass, with their names, and one that takes the product's steps; what is said of a result.
typedef struct { entry *product; program *one, *other; const char *one_name, *other_name; program *nodes; void (*say)(char *, size_t, const result *); } sides;
enum { PRODUCT, ONE, OTHER, NODES, RESULTS, READING = RESULTS, READ, SIDES, ROUNDS_AT_ONCE = 50, SMALL = 20000 };
static sides side;
static uint8_t area[ORDERSHEET_REDUCED_AREA];

static void differ(const char *what, const uint8_t *record, size_t length) {
    printf("%s\nrecord ", what);
    for (size_t k = 0; k < length; k++) printf("%02x", record[k]);
    printf("\n");
    exit(1);
}
// The product's reading and that of nodes.h have to be the same.
static void same_reading(const uint8_t *record, size_t length) {
    reader_bench_reading r = reader_bench_read(record, length);
    reading s;
    uint16_t nodes[256];
    unsigned count = read_nodes(record, length, &s, nodes);
    int agree = count == r.count + r.groups;
    if (agree && count) {
        agree = s.n == r.count && memcmp(s.forward, r.forward, s.n) == 0 && memcmp(s.hours, r.hours, 2 * s.n) == 0;
        for (unsigned i = s.n, job = last_of(s.whole); agree && i--; job = s.ahead[job]) agree = r.reverse[i] == job;
    }
    if (!agree) differ("the readings differ", record, length);
}
// The result of every side, which has to be the same for each question, and of a record where the two calls that read say that it is one.
static result last_result;
static uint64_t same(const uint8_t *record, size_t length) {
    program *const c[] = {side.one, side.other, side.nodes};
    choose(record, length);
    for (unsigned k = QUESTIONS; k--;) {
        ask(k);
        last_result = side.product(record, length);
        for (int i = 0; i < 3; i++) {
            result r;
            memset(&r, 0x5a, sizeof r);
            c[i](record, length, &r);
            if (memcmp(&r, &last_result, sizeof r)) differ("the results differ", record, length);
        }
    }
    same_reading(record, length);
    if ((reader_bench_read(record, length).count == 0) != (last_result.answer == NO_RECORD)) differ("the reading says otherwise", record, length);
    if (ordersheet_number(ordersheet_read(record, length, area, sizeof area)) != last_result.answer) differ("ordersheet_read says otherwise", record, length);
    return last_result.answer;
}
// Records in which many totals are equal or as great as they can be: hours of 0 to 2, of 0, and of 4,095 alone.
static void compare_hours(void) {
    static const unsigned fewest[] = {0, 0, ORDERSHEET_HOURS}, most[] = {2, 0, ORDERSHEET_HOURS};
    for (int i = 0; i < 3 * SMALL; i++) {
        uint8_t record[ORDERSHEET_RECORD_AREA + 8] = {0};
        unsigned leaf[128], kind = i % 3, k = below(2 * shapes), n = below(2) ? 1 + below(128) : 1 + below(12);
        size_t length = k < (unsigned)shapes ? records[k].length : random_record(record, n);
        if (k < (unsigned)shapes) memcpy(record, records[k].bytes, length);
        n = leaves(record, leaf);
        for (k = 0; k < n; k++) put(record, leaf[k] + 8, 12, fewest[kind] + below(most[kind] - fewest[kind] + 1));
        if (apart(record, length, same)) differ("a record is refused", record, length);
    }
    printf("%d records with hours of 0 to 2, of 0 and of 4,095: the same from all\n", 3 * SMALL);
}
// The record's bits, so many, with a group of one child around the node that begins here; how many bytes.
static size_t alone(uint8_t *b, const uint8_t *record, unsigned bits, unsigned at, unsigned kind) {
    for (unsigned k = 0; k < bits; k++) put(b, k < at ? k : k + GROUP, 1, record[k >> 3] >> (~k & 7) & 1);
    put(b, at, GROUP, 256 | kind << 7);
    return (bits + GROUP + 7) / 8;
}
// The records of the table, each with every byte made every other one, cut short to every length, with every byte more, and with a group of one child around
// every node.
static void compare_each(void) {
    size_t tried = 0, accepted = 0;
    for (int i = 0; i < shapes; i++) {
        size_t length = records[i].length;
        unsigned leaf[128], bits = leaf[leaves(records[i].bytes, leaf) - 1] + LEAF;
        for (unsigned at = 7; at < bits; at += is_group(records[i].bytes, at) ? GROUP : LEAF)
            for (unsigned kind = CHAIN; kind <= SIDE; kind++, tried++) {
                uint8_t b[ORDERSHEET_RECORD_AREA + 2] = {0};
                size_t longer = alone(b, records[i].bytes, bits, at, kind);
                accepted += apart(b, longer, same) == 0;
            }
        uint8_t b[ORDERSHEET_RECORD_AREA + 1];
        memcpy(b, records[i].bytes, length);
        for (size_t k = 0; k < length; k++) {
            for (int more = 255; more--; tried++) b[k]++, accepted += apart(b, length, same) == 0;
            b[k]++;
        }
        for (size_t k = 0; k < length; k++, tried++) accepted += apart(b, k, same) == 0;
        for (int more = 256; more--; tried++) b[length] = more, accepted += apart(b, length + 1, same) == 0;
    }
    printf("%zu records with a byte changed, cut short, a byte longer or a group of one child: the same from all, %zu of them accepted\n", tried, accepted);
}

// many: how often one round calls each side, for times that the clock can tell. Each question in turn, as often as the others.
typedef struct { result result; int many; double best[SIDES]; } row;
static row rows[ROWS];
#define KEPT(x) __asm__ volatile("" ::"r"(&x) : "memory")
static double calls(const named *r, int i, int many) {
    program *c = i == ONE ? side.one : i == OTHER ? side.other : side.nodes;
    choose(r->bytes, r->length);
    double start = now();
    if (i == READ) for (int k = 0; k < many; k++) {
        uint64_t answer = ordersheet_read(r->bytes, r->length, area, sizeof area);
        KEPT(answer);
    }
    else if (i == READING) for (int k = 0; k < many; k++) {
        reader_bench_reading read = reader_bench_read(r->bytes, r->length);
        KEPT(read);
    }
    else if (i == PRODUCT) for (int k = 0; k < many; k++) {
        ask(k % TIMED);
        result found = side.product(r->bytes, r->length);
        KEPT(found);
    }
    else for (int k = 0; k < many; k++) {
        result found;
        ask(k % TIMED);
        c(r->bytes, r->length, &found);
        KEPT(found);
    }
    return (now() - start) / many;
}

static void race(sides s, int rounds) {
    side = s;
    make_records();
    for (int i = 0; i < count; i++) {
        row *r = &rows[i];
        same(records[i].bytes, records[i].length);
        r->result = last_result;
        r->many = TIMED * (1 + (int)(20000 / TIMED / calls(&records[i], PRODUCT, 3 * TIMED)));
        for (int j = 0; j < SIDES; j++) r->best[j] = 1e18;
    }
    compare_hours();
    compare_each();
    compare(same);
    // some rounds of every row, then some more: a busy moment of the machine falls on all of them
    for (int from = 0; from < rounds; from += ROUNDS_AT_ONCE)
        for (int i = 0; i < count; i++)
            for (int k = from; k < rounds && k < from + ROUNDS_AT_ONCE; k++)
                for (int j = 0; j < SIDES; j++) {
                    double t = calls(&records[i], (j + k) % SIDES, rows[i].many);
                    if (t < rows[i].best[(j + k) % SIDES]) rows[i].best[(j + k) % SIDES] = t;
                }
    printf("%-34s %5s  %-19s %8s %8s %-6s %6s %8s %6s %8s %6s %8s %6s\n", "record", "bytes", "answer", "product", "C", "by", "ratio", "nodes", "ratio",
        "reading", "times", "read", "times");
    double greatest[2][4] = {{0}};   // of all that are accepted, and of those with all jobs
    for (int i = 0; i < count; i++) {
        const row *r = &rows[i];
        const double *t = r->best, p = t[PRODUCT];
        int c = t[OTHER] < t[ONE] ? OTHER : ONE;
        double times[4] = {p / t[c], p / t[NODES], p / t[READING], p / t[READ]};
        char said[64];
        if (r->result.answer) snprintf(said, sizeof said, "refused %u", (unsigned)r->result.answer);
        else side.say(said, sizeof said, &r->result);
        for (int all = 0; all < 2 && !r->result.answer; all++)
            for (int k = 0; k < 4; k++)
                if (times[k] > greatest[all][k] && (!all || records[i].bytes[0] >> 1 == ORDERSHEET_JOBS - 1)) greatest[all][k] = times[k];
        printf("%-34s %5zu  %-19s %8.0f %8.0f %-6s %6.2f %8.0f %6.2f %8.0f %6.2f %8.0f %6.2f\n", records[i].name, records[i].length, said,
            p, t[c], c == ONE ? side.one_name : side.other_name, times[0], t[NODES], times[1], t[READING], times[2], t[READ], times[3]);
    }
    for (int all = 2; all--;)
        printf("%-84s %6.2f %8s %6.2f %8s %6.2f %8s %6.2f\n", all ? "the greatest of those accepted, 128 jobs" : "the greatest of all accepted",
            greatest[all][0], "", greatest[all][1], "", greatest[all][2], "", greatest[all][3]);
}
