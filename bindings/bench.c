/* bench [INSTRUCTIONS [ROUNDS]]: instructions a second of some loops, through the library and in the machine of own.h, one after the other in each
 * round; then the time of reading (and translating) the largest sources. Times are of this process on this processor: under an emulator only the
 * ratio of the two machines means something. With an earlier library (BEFORE, see `bindings/run`) loops over whole numbers are translated and run,
 * and each source is read, by both, one after the other in each round.
 * Then members a second of a report over the most sets that it takes, with the whole store lent and with a small one: what is between the two is the
 * clearing of the store.
 * bench INSTRUCTIONS library, bench INSTRUCTIONS own: the first loop once, in one of the two, and nothing else (`bindings/run count` counts what it
 * takes of the processor's instructions). bench INSTRUCTIONS now LOOP, bench INSTRUCTIONS before LOOP: so one of the loops for both libraries. */
#define _POSIX_C_SOURCE 199309L
#include <stdio.h>
#include <stdlib.h>
#include <string.h>
#include <time.h>
#ifdef BEFORE
#include <signal.h>
#include <sys/ptrace.h>
#include <sys/wait.h>
#include <unistd.h>
#endif

#include "deed.h"
#include "own.h"
#include "words.h"

/* Of the processor, so that other programs on the machine count little. */
static double seconds(void)
{
    struct timespec t;
    clock_gettime(CLOCK_PROCESS_CPUTIME_ID, &t);
    return (double)t.tv_sec + 1e-9 * (double)t.tv_nsec;
}

/* ---- the machine */

static struct code code;
static int64_t store[DEED_STORE];
static int32_t output[DEED_ENTRY], own_output[DEED_ENTRY];

/* a := a + b, for ever: loads, additions, stores and jumps. */
static void loads_adds_stores_jumps(uint64_t limit)
{
    (void)limit;
    put(&code, ENTER, counts(2, 0, 0));
    put(&code, CONST, 0);
    put(&code, STORE, parts(0, 0, 0));
    put(&code, CONST, 1);
    put(&code, STORE, parts(0, 1, 0));
    put(&code, LOAD, parts(0, 0, 0)); /* 5 */
    put(&code, LOAD, parts(0, 1, 0));
    put(&code, PLUS, 0);
    put(&code, STORE, parts(0, 0, 0));
    put(&code, JUMP, 5);
}

/* x := x * y + z, for ever, of reals. */
static void reals(uint64_t limit)
{
    (void)limit;
    put(&code, ENTER, counts(0, 3, 0));
    put_real(&code, 1.0);
    put(&code, STORE, parts(0, 0, 0));
    put_real(&code, 0.999);
    put(&code, STORE, parts(0, 1, 0));
    put_real(&code, 0.125);
    put(&code, STORE, parts(0, 2, 0));
    put(&code, LOAD, parts(0, 0, 0)); /* 10 */
    put(&code, LOAD, parts(0, 1, 0));
    put(&code, TIMES, 0);
    put(&code, LOAD, parts(0, 2, 0));
    put(&code, PLUS, 0);
    put(&code, STORE, parts(0, 0, 0));
    put(&code, JUMP, 10);
}

/* 'for' i := 1 'step' 1 'until' n 'do' s := i - s, as a source's is laid down. */
static void step_until(uint64_t limit)
{
    put(&code, ENTER, counts(2, 0, 0));
    put(&code, CONST, 0);
    put(&code, STORE, parts(0, 1, 0));
    put(&code, CONST, 1);
    put(&code, STORE, parts(0, 0, 0));
    put(&code, GO, parts(0, 8, 6));
    put(&code, CONST, 1); /* 6 */
    put(&code, NEXT, 0);
    put(&code, HOLD, 0); /* 8 */
    put(&code, CONST, (uint32_t)(limit / 14 + 1)); /* 9 */
    put(&code, TEST, parts(0, 0, 21));
    put(&code, GO, parts(0, 12, 16));
    put(&code, GO, parts(0, 13, 6)); /* 12 */
    put(&code, SUM, parts(0, 0, 0)); /* 13 */
    put(&code, STORE, parts(0, 0, 0));
    put(&code, JUMP, 9);
    put(&code, LOAD, parts(0, 0, 0)); /* 16 */
    put(&code, LOAD, parts(0, 1, 0));
    put(&code, LESS, 0);
    put(&code, STORE, parts(0, 1, 0));
    put(&code, NEXT, 0);
    put(&code, LEAVE, parts(0, 2, 0)); /* 21 */
    put(&code, END, 0);
}

/* f(40), where f(n) is n for n < 2 and else f(n - 1) + f(n - 2): calls, conditions and results. */
static void calls(uint64_t limit)
{
    (void)limit;
    put(&code, JUMP, 20);
    put(&code, LOAD, parts(0, 1, 0)); /* 1 */
    put(&code, CONST, 2);
    put(&code, BELOW, 0);
    put(&code, UNLESS, 8);
    put(&code, LOAD, parts(0, 1, 0));
    put(&code, STORE, parts(0, 0, 0));
    put(&code, RETURN, 0);
    put(&code, RESULT, 0); /* 8 */
    put(&code, LOAD, parts(0, 1, 0));
    put(&code, CONST, 1);
    put(&code, LESS, 0);
    put(&code, CALL_NEEDED, parts(1, 2, 1));
    put(&code, RESULT, 0);
    put(&code, LOAD, parts(0, 1, 0));
    put(&code, CONST, 2);
    put(&code, LESS, 0);
    put(&code, CALL_NEEDED, parts(1, 2, 1));
    put(&code, PLUS, 0);
    put(&code, JUMP, 6);
    put(&code, RESULT, 0); /* 20 */
    put(&code, CONST, 40);
    put(&code, CALL_NEEDED, parts(0, 2, 1));
    put(&code, DROP, 0);
    put(&code, END, 0);
}

/* A source with a number in it as code. */
static void translated(const char *source, unsigned number)
{
    char text[400];
    size_t place;
    int n = snprintf(text, sizeof text, source, number);
    if (deed_translate((const uint8_t *)text, (size_t)n, code.word, WORDS, &place) != DEED_ACCEPTED)
        printf("the source is refused\n");
    code.length = DEED_CODE;
}

static const char summed[] = "'begin' 'integer' i; 'integer' 'procedure' sum(k, low, high, term); 'value' low, high; 'integer' k, low, high, term; "
                             "'begin' 'integer' s; s := 0; 'for' k := low 'step' 1 'until' high 'do' s := s + term; sum := s 'end'; "
                             "outinteger(1, sum(i, 1, %u, i %% 1000000)) 'end'";

/* A series summed by name, as a source's is laid down: some 25 instructions a term. */
static void series(uint64_t limit) { translated(summed, (unsigned)(limit / 20 + 1)); }

/* .. and one of reals. */
static void real_series(uint64_t limit)
{
    translated("'begin' 'real' x; 'real' 'procedure' sum(k, low, high, term); 'value' low, high; 'real' k, term; 'integer' low, high; "
               "'begin' 'real' s; s := 0; 'for' k := low 'step' 1 'until' high 'do' s := s + term; sum := s 'end'; "
               "outreal(1, sum(x, 1, %u, 1 / x)) 'end'",
               (unsigned)(limit / 20 + 1));
}

static struct own_ran through_library(uint64_t limit)
{
    struct own_ran r;
    r.number = deed_run(code.word, code.length, output, 0, limit, store, DEED_STORE, output, DEED_ENTRY, &r.place, &r.done, &r.taken, &r.written);
    return r;
}

static struct own_ran through_own(uint64_t limit)
{
    return own_run(code.word, code.length, own_output, 0, limit, DEED_STORE, own_output, DEED_ENTRY);
}

static int by_size(const void *a, const void *b)
{
    double x = *(const double *)a, y = *(const double *)b;
    return x < y ? -1 : x > y;
}

static void time_code(const char *name, void (*lay)(uint64_t), uint64_t limit, int rounds)
{
    double library[50], own[50], ratio[50];
    struct own_ran l = {0, 0, 0, 0, 0}, o = l;
    code.length = 0;
    lay(limit);
    for (int i = 0; i < rounds; i++) {
        double t0 = seconds();
        l = through_library(limit);
        double t1 = seconds();
        o = through_own(limit);
        double t2 = seconds();
        library[i] = (double)l.done / (t1 - t0) / 1e6;
        own[i] = (double)o.done / (t2 - t1) / 1e6;
        ratio[i] = library[i] / own[i];
        if (l.number != o.number || l.place != o.place || l.done != o.done)
            printf("the two differ\n");
    }
    qsort(library, (size_t)rounds, sizeof library[0], by_size);
    qsort(own, (size_t)rounds, sizeof own[0], by_size);
    qsort(ratio, (size_t)rounds, sizeof ratio[0], by_size);
    printf("%-28s %11llu instructions, answer %2u: library %7.1f, own %7.1f million a second, ratio %.2f (%.2f to %.2f)\n", name,
           (unsigned long long)l.done, l.number, library[rounds / 2], own[rounds / 2], ratio[rounds / 2], ratio[0], ratio[rounds - 1]);
}

#ifdef BEFORE
/* ---- loops over whole numbers, by both libraries: each translates the source and runs its own code to the end */

typedef uint16_t translator(const uint8_t *, size_t, uint32_t *, size_t, size_t *);
typedef uint16_t runner(const uint32_t *, size_t, const int32_t *, size_t, uint64_t, int64_t *, size_t, int32_t *, size_t, size_t *, uint64_t *, size_t *,
                        size_t *);
translator before_deed_translate;
runner before_deed_run;

/* A source's code run, by one of the two libraries; the time in milliseconds, and its instructions. */
static double running_time(translator *translate, runner *run, const char *text, uint64_t limit, uint64_t *done)
{
    static uint32_t words[DEED_CODE];
    size_t place, taken, written;
    if (translate((const uint8_t *)text, strlen(text), words, DEED_CODE, &place) != DEED_ACCEPTED)
        printf("a loop is refused\n");
    double t0 = seconds();
    uint16_t answer = run(words, DEED_CODE, output, 0, limit, store, DEED_STORE, output, DEED_ENTRY, &place, done, &taken, &written);
    if (answer != (limit == UINT64_MAX ? DEED_ENDED : DEED_LIMIT))
        printf("a loop does not end as it should\n");
    return (seconds() - t0) * 1e3;
}

/* A loop on a variable of the program, in a procedure so many levels in: each is declared in the one before it. */
static void lay_far(char *text, size_t room, unsigned levels, unsigned number)
{
    size_t n = (size_t)snprintf(text, room, "'begin' 'integer' x; ");
    for (unsigned i = 1; i <= levels; i++)
        n += (size_t)snprintf(text + n, room - n, "'procedure' p%u; 'begin' ", i);
    n += (size_t)snprintf(text + n, room - n, "'integer' i; 'for' i := 1 'step' 1 'until' %u 'do' x := i - x", number);
    for (unsigned i = levels; i != 0; i--)
        n += (size_t)snprintf(text + n, room - n, " 'end'; %sp%u", i == 1 ? "x := 0; " : "", i);
    snprintf(text + n, room - n, " 'end'");
}

enum { LOOPS = 6, TEXT = 2000 };
static const char *const loop_names[LOOPS] = {"an assignment", "'step' 'until'", "'while'", "calls", "a series summed by name", "a variable 30 levels out"};

/* The source of a loop that takes at least so many instructions. */
static void lay_loop(unsigned k, uint64_t limit, char *text)
{
    static const char *const sources[] = {
        "'begin' 'integer' i, s, a; s := 0; a := 3; 'for' i := 1 'step' 1 'until' %u 'do' s := (a * i + s - i) %% a 'end'",
        "'begin' 'integer' i, s; s := 0; 'for' i := 1 'step' 1 'until' %u 'do' s := i - s 'end'",
        "'begin' 'integer' i; i := 0; 'for' i := i + 1 'while' i < %u 'do' 'end'",
        "'begin' 'integer' 'procedure' f(n); 'value' n; 'integer' n; f := 'if' n < 2 'then' n 'else' f(n - 1) + f(n - 2); outinteger(1, f(%u)) 'end'",
        summed,
    };
    static const unsigned each[LOOPS] = {20, 14, 10, 0, 25, 14}; /* instructions a pass */
    unsigned n = 1;
    if (k != 3)
        n = (unsigned)(limit / each[k] + 1);
    else
        for (uint64_t f = 1, g = 1, h; 15 * (f + g) < limit && n < 40; n++, f = g, g = h) /* f(n) takes some 15 instructions a call */
            h = f + g;
    if (k == 5)
        lay_far(text, TEXT, 30, n);
    else
        snprintf(text, TEXT, sources[k], n);
}

static void time_loop(unsigned k, uint64_t limit, int rounds)
{
    char text[TEXT];
    double now[50], earlier[50], ratio[50];
    uint64_t done = 0, earlier_done = 0;
    lay_loop(k, limit, text);
    for (int i = 0; i < rounds; i++) {
        earlier[i] = running_time(before_deed_translate, before_deed_run, text, UINT64_MAX, &earlier_done);
        now[i] = running_time(deed_translate, deed_run, text, UINT64_MAX, &done);
        ratio[i] = now[i] / earlier[i];
    }
    qsort(now, (size_t)rounds, sizeof now[0], by_size);
    qsort(earlier, (size_t)rounds, sizeof earlier[0], by_size);
    qsort(ratio, (size_t)rounds, sizeof ratio[0], by_size);
    printf("loop %-24s before %9.1f milliseconds (%llu instructions), now %9.1f (%llu), now by before %.2f (%.2f to %.2f)\n", loop_names[k],
           earlier[rounds / 2], (unsigned long long)earlier_done, now[rounds / 2], (unsigned long long)done, ratio[rounds / 2], ratio[0], ratio[rounds - 1]);
}

/* A loop cut at the limit, by one of the two libraries; without a loop's number, the names of all. */
static int run_loop(uint64_t limit, const char *which, const char *loop)
{
    char text[TEXT];
    uint64_t done;
    if (loop == NULL) {
        for (unsigned i = 0; i < LOOPS; i++)
            printf("%u %s\n", i, loop_names[i]);
        return 0;
    }
    lay_loop((unsigned)atoi(loop) % LOOPS, 4 * limit, text);
    if (which[0] == 'b')
        running_time(before_deed_translate, before_deed_run, text, limit, &done);
    else
        running_time(deed_translate, deed_run, text, limit, &done);
    return done == limit ? 0 : 1;
}
#endif

/* ---- sources */

static uint8_t source[DEED_SOURCE + 100];
static size_t length;
static uint16_t table[DEED_TABLE];

static void say(const char *s)
{
    size_t n = strlen(s);
    if (length + n <= sizeof source) {
        memcpy(source + length, s, n);
        length += n;
    }
}

static void say_name(const char *front, unsigned k)
{
    char name[64];
    snprintf(name, sizeof name, "%s%03u", front, k);
    say(name);
}

/* Blanks, so that the source has all the bytes that it may have, before its last 'end'. */
static void fill_up(void)
{
    while (length + 5 < DEED_SOURCE)
        say(" ");
    say("'end'");
}

/* Few names, 2,048 symbols. */
static void plain(void)
{
    say("'begin' 'integer' a, b, c; a := b := 1");
    for (unsigned i = 0; i < 254; i++)
        say("; c := a + b % 3");
    fill_up();
}

/* As many names as there can be, each used once. */
static void many_names(const char *front, unsigned count)
{
    say("'begin''integer' ");
    for (unsigned i = 0; i < count; i++) {
        if (i != 0)
            say(",");
        say_name(front, i);
    }
    for (unsigned i = 0; i < count; i++) {
        say(";");
        say_name(front, i);
        say(":=0");
    }
    fill_up();
}

static void short_names(void) { many_names("n", 340); }

/* 32 letters each, alike but for the last three. */
static void long_names(void) { many_names("abcdefghijklmnopqrstuvwxyzabc", 230); }

/* Procedures in procedures, to the greatest depth. */
static void deep(void)
{
    say("'begin'");
    for (unsigned i = 0; i < 31; i++) {
        say(" 'integer' 'procedure' ");
        say_name("p", i);
        say("(x, y); 'value' x, y; 'integer' x, y; 'begin'");
    }
    say(" 'integer' z; z := x + y");
    for (unsigned i = 31; i != 0; i--) {
        say(" 'end'; ");
        if (i != 1) {
            say_name("p", i - 2);
            say(" := ");
        }
        say_name("p", i - 1);
        say("(");
        say(i == 1 ? "1, 2)" : "x, y) * 2 - (x + 3)");
    }
    fill_up();
}

/* 2,048 delimiter words: each of 22 in turn. No note opens, since 'comment' stands behind 'while'; and no remark runs, since 'else' stands
 * behind 'end'. They are no program, so that little but the scan is timed. */
static void delimiter_words(void)
{
    static const char *const each[] = {
        "'begin'", "'end'", "'else'", "'if'", "'then'", "'for'", "'do'", "'step'", "'until'", "'while'", "'comment'", "'integer'", "'Boolean'",
        "'procedure'", "'value'", "'true'", "'false'", "'and'", "'or'", "'not'", "'impl'", "'equiv'",
    };
    for (unsigned i = 0; i < 2048; i++)
        say(each[i % 22]);
}

/* One note. */
static void notes(void)
{
    say("'begin''comment'");
    while (length + 6 < DEED_SOURCE)
        say("x");
    say(";");
    fill_up();
}

typedef uint16_t reader(const uint8_t *, size_t, uint16_t *, size_t, size_t *);

/* What one reading of the source takes, in microseconds. */
static double reading_time(reader *read, double least, unsigned *answer, size_t *place)
{
    unsigned times = 0;
    double t0 = seconds(), t1 = t0;
    for (; t1 - t0 < least; t1 = seconds(), times++)
        *answer = read(source, length, table, DEED_TABLE, place);
    return (t1 - t0) / times * 1e6;
}

#ifdef BEFORE
uint16_t before_deed_read(const uint8_t *source, size_t source_length, uint16_t *table, size_t table_length, size_t *place);

/* How many of the processor's instructions a reading takes: another process reads, one step at a time; -1 where that is not allowed. */
static long steps(reader *read)
{
    long count = 0;
    int status;
    pid_t child = fork();
    if (child == 0) {
        size_t place;
        if (ptrace(PTRACE_TRACEME, 0, NULL, NULL) != 0)
            _exit(1);
        read(source, length, table, DEED_TABLE, &place);
        raise(SIGSTOP);
        read(source, length, table, DEED_TABLE, &place);
        raise(SIGSTOP);
        _exit(0);
    }
    if (child < 0 || waitpid(child, &status, 0) != child || !WIFSTOPPED(status))
        return -1;
    do {
        if (ptrace(PTRACE_SINGLESTEP, child, NULL, NULL) != 0)
            return -1;
        waitpid(child, &status, 0);
        count++;
    } while (WIFSTOPPED(status) && WSTOPSIG(status) == SIGTRAP);
    kill(child, SIGKILL);
    waitpid(child, &status, 0);
    return count;
}

/* The source read by both libraries in each of nine rounds; the instructions of a short reading counted. */
static void time_both(const char *name)
{
    enum { TIMES = 9 };
    static uint16_t earlier_table[DEED_TABLE];
    double now[TIMES], earlier[TIMES], ratio[TIMES];
    for (int i = 0; i < TIMES; i++) {
        unsigned answer = 0, earlier_answer = 0;
        size_t place = 0, earlier_place = 0;
        earlier[i] = reading_time(before_deed_read, 0.1, &earlier_answer, &earlier_place);
        memcpy(earlier_table, table, sizeof table);
        now[i] = reading_time(deed_read, 0.1, &answer, &place);
        ratio[i] = now[i] / earlier[i];
        if (answer != earlier_answer || place != earlier_place || memcmp(earlier_table, table, sizeof table) != 0)
            printf("the two differ\n");
    }
    qsort(now, TIMES, sizeof now[0], by_size);
    qsort(earlier, TIMES, sizeof earlier[0], by_size);
    qsort(ratio, TIMES, sizeof ratio[0], by_size);
    printf("both %-16s before %9.1f, now %9.1f microseconds, now by before %.2f (%.2f to %.2f)\n", name, earlier[TIMES / 2], now[TIMES / 2],
           ratio[TIMES / 2], ratio[0], ratio[TIMES - 1]);
    if (now[TIMES / 2] < 100)
        printf("both %-16s before %ld, now %ld processor instructions\n", name, steps(before_deed_read), steps(deed_read));
}
#endif

static void time_source(const char *name, void (*make)(void))
{
    size_t place = 0;
    unsigned answer = 0;
    length = 0;
    make();
    double took = reading_time(deed_read, 0.5, &answer, &place);
    printf("read %-16s %5zu bytes, answer %u at %zu, %5u uses: %9.1f microseconds\n", name, length, answer, place, table[0], took);
#ifdef BEFORE
    time_both(name);
#endif
    static uint32_t words[DEED_CODE];
    unsigned times = 0;
    double t0 = seconds(), t1 = t0;
    for (; t1 - t0 < 0.5; t1 = seconds(), times++)
        answer = deed_translate(source, length, words, DEED_CODE, &place);
    printf("translate %-11s %5zu bytes, answer %u at %zu:              %9.1f microseconds\n", name, length, answer, place, (t1 - t0) / times * 1e6);
}

/* ---- a report over many members, by the rule of examples/widow.alg */

static const char widow[] =
    "'begin' 'integer' pay, years, children, rate; 'integer' 'procedure' shared(left, n); 'value' left, n; 'integer' left, n; 'if' n = 0 'then' "
    "shared := 0 'else' 'begin' 'integer' rate; rate := left % 6; shared := rate + shared(left - rate, n - 1) 'end'; ininteger(1, pay); "
    "ininteger(1, years); ininteger(1, children); rate := 'if' years > 40 'then' 40 'else' years; outinteger(1, pay * rate % 80 % 2); "
    "outinteger(1, shared(pay * rate % 80 - pay * rate % 80 % 2, children)) 'end'";

/* The time of a report over DEED_SETS members with so many numbers of the store lent. */
static double report_time(const uint32_t *words, const int32_t *sets, size_t length, size_t lent, int64_t *figures)
{
    static int64_t cells[DEED_STORE];
    static int32_t entries[60];
    uint16_t number;
    size_t place;
    double t0 = seconds();
    deed_report(words, DEED_CODE, sets, length, 100000, cells, lent, entries, 60, figures, DEED_FIGURES, &number, &place);
    return seconds() - t0;
}

static void time_report(int rounds)
{
    static uint32_t words[DEED_CODE];
    static int32_t sets[1 + 4 * DEED_SETS];
    static const size_t lent[] = {DEED_STORE, 256};
    int64_t figures[DEED_FIGURES];
    size_t place, n = 0;
    deed_translate((const uint8_t *)widow, sizeof widow - 1, words, DEED_CODE, &place);
    sets[n++] = DEED_SETS;
    for (int32_t i = 0; i < DEED_SETS; i++)
        sets[n++] = 3, sets[n++] = 1000 + i, sets[n++] = i % 50, sets[n++] = i % 7;
    for (int k = 0; k < 2; k++) {
        double best = report_time(words, sets, n, lent[k], figures);
        for (int i = 1; i < rounds; i++) {
            double t = report_time(words, sets, n, lent[k], figures);
            best = t < best ? t : best;
        }
        printf("report, %d members, %5zu numbers of store: %9.0f members a second, %5.2f microseconds each; ended %lld, sum %lld\n", DEED_SETS, lent[k],
               DEED_SETS / best, best / DEED_SETS * 1e6, (long long)figures[0], (long long)figures[15]);
    }
}

int main(int argc, char **argv)
{
    uint64_t limit = argc > 1 ? strtoul(argv[1], NULL, 10) : 100000000;
    if (argc > 2 && (strcmp(argv[2], "library") == 0 || strcmp(argv[2], "own") == 0)) {
        loads_adds_stores_jumps(limit);
        return (argv[2][0] == 'l' ? through_library(limit) : through_own(limit)).number == DEED_LIMIT ? 0 : 1;
    }
#ifdef BEFORE
    if (argc > 2 && (strcmp(argv[2], "before") == 0 || strcmp(argv[2], "now") == 0))
        return run_loop(limit, argv[2], argc > 3 ? argv[3] : NULL);
#endif
    int rounds = argc > 2 ? atoi(argv[2]) : 5;
    if (limit == 0 || rounds < 1 || rounds > 50) {
        fprintf(stderr, "usage: bench [INSTRUCTIONS [ROUNDS]]\n");
        return 2;
    }
    time_code("loads, adds, stores, jumps", loads_adds_stores_jumps, limit, rounds);
    time_code("'step' 'until'", step_until, limit, rounds);
    time_code("calls", calls, limit, rounds);
    time_code("reals", reals, limit, rounds);
    time_code("a series summed by name", series, limit, rounds);
    time_code("a series of reals", real_series, limit, rounds);
    time_report(rounds);
#ifdef BEFORE
    for (unsigned k = 0; k < LOOPS; k++)
        time_loop(k, limit, rounds);
#endif
    time_source("delimiter words", delimiter_words);
    time_source("plain", plain);
    time_source("short names", short_names);
    time_source("long names", long_names);
    time_source("deep", deep);
    time_source("a note", notes);
    return 0;
}
