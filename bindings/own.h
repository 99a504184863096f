/* A scanner and a machine of their own, written from paper 01 and docs/MACHINE.md: nothing here is taken from the proved code. compare.c holds
 * the library against them, bench.c runs beside them. */
#ifndef OWN_H
#define OWN_H

#include <math.h>
#include <stddef.h>
#include <stdint.h>
#include <string.h>

/* ---- bytes to symbols */

enum { OWN_SYMBOLS = 2048 };

/* What scanning finds: 0, or 3 or 4 with the place; and the symbols before that, each with its place and whether it is a name. */
struct own_scan {
    unsigned number;
    size_t place;
    size_t count;
    size_t at[OWN_SYMBOLS];
    uint8_t name[OWN_SYMBOLS];
};

static int own_blank(uint8_t b) { return b == ' ' || b == '\t' || b == '\r' || b == '\n'; }
static int own_digit(uint8_t b) { return '0' <= b && b <= '9'; }
static int own_letter(uint8_t b) { return ('a' <= b && b <= 'z') || ('A' <= b && b <= 'Z'); }

enum own_kind { OWN_NONE, OWN_NAME, OWN_NUMBER, OWN_SIGN, OWN_SEMICOLON, OWN_BEGIN, OWN_END, OWN_ELSE, OWN_COMMENT, OWN_WORD };

/* A letter in small; any other byte as it is. */
static uint8_t own_small(uint8_t b) { return 'A' <= b && b <= 'Z' ? (uint8_t)(b - 'A' + 'a') : b; }

/* Whether n bytes are this text, letter case aside (request 8). */
static int own_same(const uint8_t *s, const char *text, size_t n)
{
    for (size_t i = 0; i < n; i++)
        if (own_small(s[i]) != own_small((uint8_t)text[i]))
            return 0;
    return 1;
}

struct own_delimiter { const char *text; enum own_kind kind; };

/* The word between two apostrophes, in the house's spelling; NULL where it is none. */
static const struct own_delimiter *own_delimiter(const uint8_t *w, size_t n)
{
    static const struct own_delimiter words[] = {
        {"begin", OWN_BEGIN}, {"end", OWN_END}, {"else", OWN_ELSE}, {"comment", OWN_COMMENT}, {"if", OWN_WORD}, {"then", OWN_WORD},
        {"for", OWN_WORD}, {"do", OWN_WORD}, {"step", OWN_WORD}, {"until", OWN_WORD}, {"while", OWN_WORD}, {"integer", OWN_WORD},
        {"real", OWN_WORD}, {"Boolean", OWN_WORD}, {"procedure", OWN_WORD}, {"value", OWN_WORD}, {"true", OWN_WORD}, {"false", OWN_WORD}, {"and", OWN_WORD},
        {"or", OWN_WORD}, {"not", OWN_WORD}, {"impl", OWN_WORD}, {"equiv", OWN_WORD},
    };
    for (size_t i = 0; i < sizeof words / sizeof words[0]; i++)
        if (strlen(words[i].text) == n && own_same(w, words[i].text, n))
            return &words[i];
    return NULL;
}

static enum own_kind own_word(const uint8_t *w, size_t n)
{
    const struct own_delimiter *d = own_delimiter(w, n);
    return d == NULL ? OWN_NONE : d->kind;
}

/* The first byte from i on that is no blank, or n. */
static size_t own_skip(const uint8_t *s, size_t n, size_t i)
{
    while (i < n && own_blank(s[i]))
        i++;
    return i;
}

/* Whether a point stands at i, and behind it a digit. */
static int own_point(const uint8_t *s, size_t n, size_t i)
{
    if (i >= n || s[i] != '.')
        return 0;
    i = own_skip(s, n, i + 1);
    return i < n && own_digit(s[i]);
}

/* The digits from i on, with the blanks between them; how many there are, and their value as far as it is asked. */
static size_t own_digits(const uint8_t *s, size_t n, size_t i, unsigned *count, uint64_t *value)
{
    for (; i < n && (own_digit(s[i]) || own_blank(s[i])); i++)
        if (own_digit(s[i])) {
            if (*count < 1000)
                ++*count;
            if (*value <= 2147483647u)
                *value = 10 * *value + (s[i] - '0');
        }
    return i;
}

/* A number: with a point it has at most 15 digits, leading zeros counted; without, any number of them. */
static size_t own_number(const uint8_t *s, size_t n, size_t i, int *large)
{
    unsigned count = 0;
    uint64_t value = 0;
    i = own_digits(s, n, i, &count, &value);
    *large = value > 2147483647u;
    if (own_point(s, n, i)) {
        i = own_digits(s, n, i + 1, &count, &value);
        *large = count > 15;
    }
    return i;
}

/* The symbol that begins at *at, which is no blank: its kind, whether it is over its limit; *at goes behind it. */
static enum own_kind own_symbol(const uint8_t *s, size_t n, size_t *at, int *large)
{
    size_t i = *at;
    uint8_t b = s[i++];
    *large = 0;
    if (own_letter(b)) {
        unsigned length = 1;
        for (; i < n && (own_letter(s[i]) || own_digit(s[i]) || own_blank(s[i])); i++)
            if (!own_blank(s[i]) && length < 100)
                length++;
        *large = length > 32;
        *at = i;
        return OWN_NAME;
    }
    if (own_digit(b) || own_point(s, n, *at)) {
        *at = own_number(s, n, *at, large);
        return OWN_NUMBER;
    }
    if (b == '\'') {
        const uint8_t *close = memchr(s + i, '\'', n - i);
        if (close == NULL)
            return OWN_NONE;
        *at = (size_t)(close - s) + 1;
        return own_word(s + i, (size_t)(close - (s + i)));
    }
    if (b == 0 || strchr("+-*/%<=>#,:;()", b) == NULL)
        return OWN_NONE;
    if (b == '<' || b == '>' || b == ':') {
        size_t j = own_skip(s, n, i);
        if (j < n && s[j] == '=')
            i = j + 1;
    }
    *at = i;
    return b == ';' ? OWN_SEMICOLON : OWN_SIGN;
}

static void own_refuse(struct own_scan *r, unsigned number, size_t place)
{
    r->number = number;
    r->place = place;
}

static inline void own_scan(const uint8_t *s, size_t n, struct own_scan *r)
{
    size_t i = 0;
    int may_note = 0, remark = 0;
    r->count = 0;
    own_refuse(r, 0, 0);
    for (;;) {
        i = own_skip(s, n, i);
        if (i == n)
            return;
        size_t at = i;
        int large;
        enum own_kind kind = own_symbol(s, n, &i, &large);
        if (kind == OWN_NONE) {
            own_refuse(r, 3, at);
            return;
        }
        if (remark) {
            if (kind != OWN_END && kind != OWN_ELSE && kind != OWN_SEMICOLON)
                continue;
        } else if (may_note && kind == OWN_COMMENT) {
            const uint8_t *end = memchr(s + i, ';', n - i);
            if (end == NULL) {
                own_refuse(r, 3, at);
                return;
            }
            i = (size_t)(end - s) + 1;
            continue;
        } else if (large) {
            own_refuse(r, 4, at);
            return;
        }
        if (r->count == OWN_SYMBOLS) {
            own_refuse(r, 4, at);
            return;
        }
        r->at[r->count] = at;
        r->name[r->count] = kind == OWN_NAME;
        r->count++;
        remark = kind == OWN_END;
        may_note = kind == OWN_SEMICOLON || kind == OWN_BEGIN;
    }
}

/* ---- values and cells */

/* The types by their numbers: whole number, real, Boolean. A cell has one, holding a value or unassigned; or it is a name formal's. */
enum { OWN_WHOLE, OWN_REAL, OWN_TRUTH, OWN_TYPES, OWN_UNSET = OWN_TYPES, OWN_NAMED = 2 * OWN_TYPES };

/* The tag is a type, of a value; OWN_UNSET and a type; or OWN_NAMED, with the address of the actual's code as its whole number. */
struct own_cell {
    uint32_t tag;
    union {
        int64_t whole; /* of a Boolean 0 or 1 */
        double real;
    };
};

static inline uint32_t own_type(struct own_cell x) { return x.tag % OWN_TYPES; }

/* Whether values of two types go together: numbers with numbers, Booleans with Booleans. */
static inline int own_suit(uint32_t t, uint32_t u) { return (t == OWN_TRUTH) == (u == OWN_TRUTH); }

/* Whether both are values of one type. */
static inline int own_both(struct own_cell x, struct own_cell y, uint32_t type) { return x.tag == type && y.tag == type; }

static inline double own_real(struct own_cell x) { return x.tag == OWN_REAL ? x.real : (double)x.whole; }

/* Whether x is a whole number of 32 bits. */
static inline int own_in_range(int64_t x) { return INT32_MIN <= x && x <= INT32_MAX; }

/* entier(x + 0.5), the sum rounded once; 0 where that is no whole number of 32 bits. */
static inline int own_entier(double x, int64_t *whole)
{
    double sum = x + 0.5;
    if (!(-2147483648.0 <= sum && sum < 2147483648.0))
        return 0;
    *whole = (int64_t)sum;
    if ((double)*whole > sum)
        --*whole;
    return 1;
}

/* A value becomes one of a type that suits it; 0 where it has no place there. */
static inline int own_turn(struct own_cell *x, uint32_t type)
{
    int64_t whole;
    if (x->tag == type)
        return 1;
    if (type == OWN_REAL)
        x->real = (double)x->whole;
    else if (own_entier(x->real, &whole))
        x->whole = whole;
    else
        return 0;
    x->tag = type;
    return 1;
}

/* x + y, x - y, x * y or x / y of two reals, by the operation's sign. */
static inline double own_sum(double x, double y, char sign) { return sign == '+' ? x + y : sign == '-' ? x - y : sign == '*' ? x * y : x / y; }

/* Whether a step element is left: with a real among the three, by a comparison. */
static inline int own_leaves(struct own_cell v, struct own_cell step, struct own_cell bound)
{
    if (own_both(v, bound, OWN_WHOLE) && step.tag == OWN_WHOLE)
        return step.whole > 0 ? v.whole > bound.whole : step.whole < 0 && v.whole < bound.whole;
    double x = own_real(v), s = own_real(step), y = own_real(bound);
    return s > 0 ? x > y : s < 0 && x < y;
}

/* ---- the machine */

/* What a run answers. */
struct own_ran {
    unsigned number;
    size_t place;
    uint64_t done;
    size_t taken;
    size_t written;
};

/* Nothing of an activation stays; its first cell is a result that is needed; it was begun for a store. */
enum { OWN_GONE, OWN_KEPT, OWN_SOUGHT };

struct own_activation {
    uint32_t back;   /* where to return to */
    uint32_t first;  /* its first cell */
    uint32_t around; /* the activation around it */
    uint32_t place;  /* the call's place */
    uint32_t fate;
    uint32_t noted;  /* return positions */
    uint32_t position[64];
};

/* A name formal on the way of a store: its type, and where its actual begins. */
struct own_link { uint32_t type, place; };

/* The activation `levels` out from a live one; the program has none around it. */
static inline uint32_t own_out(const struct own_activation *a, uint32_t live, uint32_t levels)
{
    for (; levels != 0 && live != 0; levels--)
        live = a[live].around;
    return live;
}

/* `lent` is how many numbers of the store were lent; what stands in them is not asked. */
static inline struct own_ran own_run(const uint32_t *code, size_t words, const int32_t *input, size_t inputs, uint64_t limit, size_t lent,
                                     int32_t *output, size_t outputs)
{
    struct own_activation a[257];
    struct own_cell cell[8192], held[8192], x, y;
    struct own_link link[256];
    const uint32_t most = lent / 2 < 8192 ? (uint32_t)(lent / 2) : 8192;
    const uint32_t instructions = (uint32_t)((words < 16384 ? words : 16384) / 2);
    /* The counter; the live activations, and the first cell of the running one; the cells in use, and the steps held. */
    uint32_t pc = 0, live = 0, floor = 0, cells = 0, holds = 0, w, v;
    /* The cell that the last store through a name formal came to, and the formals on the way: the last one is the outermost. */
    uint32_t found = 0, links = 0;
    /* A variable's cell, and how many formals are on the way to it. */
    uint32_t c, k;
    struct own_ran r = {0, 0, 0, 0, 0};
    uint64_t done = 0;
    a[0].first = a[0].noted = 0;

#define PLACE (w >> 6)
#define HIGH (v >> 26)
#define MID ((v >> 13) & 8191)
#define LOW (v & 8191)
#define STOP(n, p) do { r.number = (n); r.place = (p); goto stopped; } while (0)
#define STRAY_IF(e) do { if (e) goto stray; } while (0)
#define IS_VALUE(e) ((e).tag < OWN_TYPES)
#define ONE_VALUE STRAY_IF(cells <= floor || !IS_VALUE(cell[cells - 1])); y = cell[cells - 1]
#define TWO_VALUES STRAY_IF(cells < floor + 2 || !IS_VALUE(cell[cells - 1]) || !IS_VALUE(cell[cells - 2])); x = cell[cells - 2]; y = cell[cells - 1]
#define VARIABLE do { \
        c = MID == 8191 ? found : (HIGH == 0 ? floor : a[own_out(a, live, HIGH)].first) + MID; \
        k = MID == 8191 ? links : 0; \
    } while (0)
/* One of the first n cells, no name formal's. */
#define IN_USE(n) STRAY_IF(c >= (n) || cell[c].tag == OWN_NAMED)
/* .. and it and the formals on the way take values of a type. */
#define REACHED_BY(t, n) do { \
        IN_USE(n); \
        STRAY_IF(!own_suit((t), own_type(cell[c]))); \
        for (uint32_t j = 0; j < k; j++) \
            STRAY_IF(!own_suit((t), link[j].type)); \
    } while (0)
/* What stands there, converted by each formal, the innermost first. */
#define READ_INTO(e) do { \
        if (!IS_VALUE(cell[c])) \
            STOP(23, PLACE); \
        (e) = cell[c]; \
        for (uint32_t j = 0; j < k; j++) \
            if (!own_turn(&(e), link[j].type)) \
                STOP(21, link[j].place); \
    } while (0)
/* .. and a value goes there, the outermost first. */
#define SAVE(e) do { \
        struct own_cell saved = (e); \
        for (uint32_t j = k; j != 0; j--) \
            if (!own_turn(&saved, link[j - 1].type)) \
                STOP(21, PLACE); \
        if (!own_turn(&saved, own_type(cell[c]))) \
            STOP(21, PLACE); \
        cell[c] = saved; \
    } while (0)
#define ROOM if (cells + holds >= most) STOP(26, PLACE)
#define GIVE_WHOLE(e, z) do { int64_t given = (z); if (!own_in_range(given)) STOP(21, PLACE); (e).tag = OWN_WHOLE; (e).whole = given; } while (0)
#define GIVE_REAL(e, z) do { double given = (z); if (!isfinite(given)) STOP(21, PLACE); (e).tag = OWN_REAL; (e).real = given; } while (0)
#define GIVE_TRUTH(e, z) do { int given = (z); (e).tag = OWN_TRUTH; (e).whole = given; } while (0)
#define NUMBERS STRAY_IF(x.tag == OWN_TRUTH || y.tag == OWN_TRUTH)
#define ARITHMETIC(sign) { \
        TWO_VALUES; \
        NUMBERS; \
        if (own_both(x, y, OWN_WHOLE)) \
            GIVE_WHOLE(cell[cells - 2], x.whole sign y.whole); \
        else \
            GIVE_REAL(cell[cells - 2], own_sum(own_real(x), own_real(y), #sign[0])); \
        cells--; \
        pc++; \
        break; \
    }
#define RELATION(sign) { \
        TWO_VALUES; \
        NUMBERS; \
        GIVE_TRUTH(cell[cells - 2], own_both(x, y, OWN_WHOLE) ? x.whole sign y.whole : own_real(x) sign own_real(y)); \
        cells--; \
        pc++; \
        break; \
    }
#define LOGICAL(e) { \
        TWO_VALUES; \
        STRAY_IF(!own_both(x, y, OWN_TRUTH)); \
        GIVE_TRUTH(cell[cells - 2], (e)); \
        cells--; \
        pc++; \
        break; \
    }
    for (;;) {
        if (done == limit)
            STOP(20, 0);
        done++;
        STRAY_IF(pc >= instructions);
        w = code[2 * pc];
        v = code[2 * pc + 1];
        switch (w & 63) {
        case 1:
            STOP(0, 0);
        case 2:
            pc = LOW;
            break;
        case 3: {
            const uint32_t counts[OWN_TYPES] = {v % 1024, v / 1024 % 1024, v / 1048576};
            if (cells + holds + counts[0] + counts[1] + counts[2] > most)
                STOP(26, PLACE);
            for (uint32_t t = 0; t < OWN_TYPES; t++)
                for (uint32_t i = counts[t]; i != 0; i--)
                    cell[cells++].tag = OWN_UNSET + t;
            pc++;
            break;
        }
        case 4:
            STRAY_IF(cells < floor + MID);
            cells -= MID;
            pc++;
            break;
        case 5:
        case 6: {
            STRAY_IF(cells < floor + MID);
            if (live == 256)
                STOP(27, PLACE);
            uint32_t around = own_out(a, live, HIGH);
            live++;
            a[live].back = pc + 1;
            a[live].first = floor = cells - MID;
            a[live].around = around;
            a[live].place = PLACE;
            a[live].fate = (w & 63) == 5 ? OWN_KEPT : OWN_GONE;
            a[live].noted = 0;
            pc = LOW;
            break;
        }
        case 7:
            STRAY_IF(LOW >= OWN_TYPES || live == 0);
            if (a[live].fate == OWN_KEPT) {
                STRAY_IF(cells <= floor || cell[floor].tag == OWN_NAMED);
                if (!IS_VALUE(cell[floor]))
                    STOP(23, a[live].place);
                cells = floor + 1;
            } else {
                STRAY_IF(cells < floor);
                cells = floor;
                if (a[live].fate == OWN_SOUGHT)
                    link[links++] = (struct own_link){LOW, PLACE};
            }
            pc = a[live].back;
            live--;
            floor = a[live].first;
            break;
        case 8:
            STRAY_IF(a[live].noted != HIGH);
            a[live].position[HIGH] = MID;
            a[live].noted++;
            pc = LOW;
            break;
        case 9:
            STRAY_IF(a[live].noted != HIGH + 1);
            a[live].noted--;
            pc = a[live].position[HIGH];
            break;
        case 10:
            ONE_VALUE;
            STRAY_IF(y.tag != OWN_TRUTH);
            cells--;
            pc = y.whole == 0 ? LOW : pc + 1;
            break;
        case 11:
            VARIABLE;
            ONE_VALUE;
            STRAY_IF(holds == 0 || y.tag == OWN_TRUTH || held[holds - 1].tag == OWN_TRUTH);
            REACHED_BY(OWN_WHOLE, cells - 1);
            READ_INTO(x);
            cells--;
            if (own_leaves(x, held[holds - 1], y)) {
                holds--;
                pc = LOW;
            } else
                pc++;
            break;
        case 12:
            ROOM;
            GIVE_WHOLE(cell[cells], (int32_t)v);
            cells++;
            pc++;
            break;
        case 13:
            VARIABLE;
            IN_USE(cells);
            REACHED_BY(own_type(cell[c]), cells);
            READ_INTO(x);
            ROOM;
            cell[cells++] = x;
            pc++;
            break;
        case 14:
        case 15:
            ONE_VALUE;
            VARIABLE;
            REACHED_BY(y.tag, cells - 1);
            SAVE(y);
            cells -= (w & 63) == 14;
            pc++;
            break;
        case 16:
            STRAY_IF(LOW >= OWN_TYPES);
            ROOM;
            cell[cells++].tag = OWN_UNSET + LOW;
            pc++;
            break;
        case 17:
            ONE_VALUE;
            cells--;
            pc++;
            break;
        case 18:
            ONE_VALUE;
            VARIABLE;
            REACHED_BY(OWN_WHOLE, cells - 1);
            STRAY_IF(y.tag != OWN_WHOLE);
            if (y.whole != 1)
                STOP(28, PLACE);
            if (r.taken == inputs)
                STOP(24, PLACE);
            cells--;
            y.whole = input[r.taken++];
            SAVE(y);
            pc++;
            break;
        case 19:
        case 47:
            TWO_VALUES;
            STRAY_IF(x.tag != OWN_WHOLE || y.tag != ((w & 63) == 19 ? OWN_WHOLE : OWN_REAL));
            if (x.whole != 1)
                STOP(28, PLACE);
            if (outputs - r.written < 3)
                STOP(25, PLACE);
            output[r.written] = y.tag == OWN_REAL;
            if (y.tag == OWN_REAL) /* the real's bits, low half first */
                memcpy(output + r.written + 1, &y.real, sizeof y.real);
            else {
                output[r.written + 1] = (int32_t)y.whole;
                output[r.written + 2] = 0;
            }
            r.written += 3;
            cells -= 2;
            pc++;
            break;
        case 20:
            ONE_VALUE;
            cells--;
            held[holds++] = y;
            pc++;
            break;
        case 21:
            VARIABLE;
            ONE_VALUE;
            STRAY_IF(holds == 0 || y.tag == OWN_TRUTH);
            REACHED_BY(OWN_WHOLE, cells - 1);
            READ_INTO(x);
            if (own_both(x, y, OWN_WHOLE))
                GIVE_WHOLE(cell[cells - 1], x.whole + y.whole);
            else
                GIVE_REAL(cell[cells - 1], own_real(x) + own_real(y));
            held[holds - 1] = y;
            pc++;
            break;
        case 22:
            ONE_VALUE;
            STRAY_IF(y.tag == OWN_TRUTH);
            if (y.tag == OWN_WHOLE)
                GIVE_WHOLE(cell[cells - 1], -y.whole);
            else
                GIVE_REAL(cell[cells - 1], -y.real);
            pc++;
            break;
        case 23:
            ONE_VALUE;
            STRAY_IF(y.tag != OWN_TRUTH);
            GIVE_TRUTH(cell[cells - 1], y.whole == 0);
            pc++;
            break;
        case 24:
            ONE_VALUE;
            STRAY_IF(y.tag != OWN_WHOLE);
            GIVE_WHOLE(cell[cells - 1], y.whole < 0 ? -y.whole : y.whole);
            pc++;
            break;
        case 25: ARITHMETIC(+)
        case 26: ARITHMETIC(-)
        case 27: ARITHMETIC(*)
        case 28:
            TWO_VALUES;
            STRAY_IF(!own_both(x, y, OWN_WHOLE));
            if (y.whole == 0)
                STOP(22, PLACE);
            GIVE_WHOLE(cell[cells - 2], x.whole / y.whole);
            cells--;
            pc++;
            break;
        case 29: RELATION(<)
        case 30: RELATION(<=)
        case 31: RELATION(==)
        case 32: RELATION(>=)
        case 33: RELATION(>)
        case 34: RELATION(!=)
        case 35: LOGICAL(x.whole != 0 && y.whole != 0)
        case 36: LOGICAL(x.whole != 0 || y.whole != 0)
        case 37: LOGICAL(x.whole == 0 || y.whole != 0)
        case 38: LOGICAL(x.whole == y.whole)
        case 39:
            ROOM;
            cell[cells].tag = OWN_NAMED;
            cell[cells++].whole = pc + 1;
            pc = LOW;
            break;
        case 40:
        case 41:
        case 42: {
            STRAY_IF((w & 63) == 42 && live == 0);
            uint32_t owner = own_out(a, live, HIGH);
            c = a[owner].first + MID;
            STRAY_IF(c >= cells || cell[c].tag != OWN_NAMED);
            if (live == 256)
                STOP(27, PLACE);
            uint32_t place = (w & 63) == 42 ? a[live].place : PLACE;
            live++;
            a[live].back = pc + 1;
            a[live].first = floor = cells;
            a[live].around = owner == 0 ? 0 : owner - 1;
            a[live].place = place;
            a[live].fate = (w & 63) == 40 ? OWN_KEPT : OWN_SOUGHT;
            a[live].noted = 0;
            if (a[live].fate == OWN_SOUGHT)
                links = 0;
            pc = (uint32_t)cell[c].whole + (a[live].fate == OWN_KEPT ? 2 : 0);
            break;
        }
        case 43:
            VARIABLE;
            IN_USE(cells);
            found = c;
            links = 0;
            pc++;
            break;
        case 44:
            STRAY_IF(live == 0);
            STOP(30, a[live].place);
        case 45:
            ONE_VALUE;
            STRAY_IF(y.tag != OWN_WHOLE);
            if (y.whole != 1)
                STOP(28, PLACE);
            pc++;
            break;
        case 46:
            TWO_VALUES;
            NUMBERS;
            if (own_real(y) == 0)
                STOP(22, PLACE);
            GIVE_REAL(cell[cells - 2], own_sum(own_real(x), own_real(y), '/'));
            cells--;
            pc++;
            break;
        case 48:
            STRAY_IF(LOW > 1);
            ROOM;
            GIVE_TRUTH(cell[cells], LOW == 1);
            cells++;
            pc++;
            break;
        case 49: {
            ONE_VALUE;
            STRAY_IF(y.tag != OWN_WHOLE || (v >> 20 & 2047) == 2047);
            uint64_t bits = (uint64_t)v << 32 | (uint32_t)y.whole;
            memcpy(&cell[cells - 1].real, &bits, sizeof bits);
            cell[cells - 1].tag = OWN_REAL;
            pc++;
            break;
        }
        case 50:
            STRAY_IF(LOW >= OWN_TYPES);
            ONE_VALUE;
            STRAY_IF(!own_suit(y.tag, LOW));
            if (!own_turn(&cell[cells - 1], LOW))
                STOP(21, PLACE);
            pc++;
            break;
        default:
            goto stray;
        }
    }
stray:
    r.number = 29;
    r.place = pc;
stopped:
    r.done = done;
    return r;
#undef PLACE
#undef HIGH
#undef MID
#undef LOW
#undef STOP
#undef STRAY_IF
#undef IS_VALUE
#undef ONE_VALUE
#undef TWO_VALUES
#undef VARIABLE
#undef IN_USE
#undef REACHED_BY
#undef READ_INTO
#undef SAVE
#undef ROOM
#undef GIVE_WHOLE
#undef GIVE_REAL
#undef GIVE_TRUTH
#undef NUMBERS
#undef ARITHMETIC
#undef RELATION
#undef LOGICAL
}

#endif
