/* Records of runs and a replay, and a report over sets of input, written apart from the library (paper 02, requests 11 and 12): words are taken from
 * the left. */
#ifndef MONTHS_H
#define MONTHS_H

#include <string.h>

#include "deed.h"
#include "own.h"

/* Words, and how far they are taken; it stays at the first that is bad. */
struct own_words {
    const int32_t *word;
    size_t length, at;
    int bad;
};

/* The next word, which is to be from `least` to `most`. */
static int32_t own_word_in(struct own_words *w, int32_t least, int32_t most)
{
    if (w->bad || w->at >= w->length || w->word[w->at] < least || w->word[w->at] > most) {
        w->bad = 1;
        return 0;
    }
    return w->word[w->at++];
}

static int32_t own_any(struct own_words *w) { return own_word_in(w, INT32_MIN, INT32_MAX); }

static int32_t own_count(struct own_words *w) { return own_word_in(w, 0, INT32_MAX); }

/* Nothing may stand behind the words taken. */
static void own_end(struct own_words *w)
{
    if (w->at < w->length)
        w->bad = 1;
}

struct own_record {
    size_t bad; /* the first bad word's index, or SIZE_MAX */
    const int32_t *input, *entries;
    size_t inputs, written, store, output;
    uint64_t limit;
    unsigned answer;
};

static struct own_record own_record(const int32_t *words, size_t length)
{
    struct own_words w = {words, length, 0, 0};
    struct own_record r = {0};
    r.inputs = (size_t)own_count(&w);
    r.input = words + w.at;
    for (size_t i = 0; i < r.inputs && !w.bad; i++)
        own_any(&w);
    own_word_in(&w, 1, 1);
    uint32_t low = (uint32_t)own_any(&w), high = (uint32_t)own_any(&w);
    r.limit = (uint64_t)high << 32 | low;
    own_word_in(&w, 1, 1);
    r.store = (size_t)own_count(&w);
    own_word_in(&w, 1, 1);
    r.output = (size_t)own_count(&w);
    own_word_in(&w, 1, 1);
    int ended = !w.bad && w.at < length && words[w.at] == 0;
    r.answer = (unsigned)(ended ? own_word_in(&w, 0, 0) : own_word_in(&w, DEED_LIMIT, DEED_NO_VARIABLE));
    size_t entries = (size_t)own_count(&w);
    r.entries = words + w.at;
    r.written = DEED_ENTRY * entries;
    for (size_t i = 0; i < entries && !w.bad; i++) {
        int32_t kind = own_word_in(&w, DEED_WHOLE, DEED_REAL);
        own_any(&w);
        if (kind == DEED_WHOLE)
            own_word_in(&w, 0, 0);
        else
            own_any(&w);
    }
    own_end(&w);
    r.bad = w.bad ? w.at : SIZE_MAX;
    return r;
}

/* What is to be said of a record, and how much of the store is zero afterwards. */
struct own_replayed {
    unsigned kind, number;
    size_t place, cleared;
};

/* The first entry that differs, the answer being entry 0; 0 entries apart: SIZE_MAX. */
static size_t own_apart(const struct own_record *r, unsigned number, const int32_t *output, size_t written)
{
    size_t i = 0;
    if (r->answer != number)
        return 0;
    while (i < r->written && i < written && r->entries[i] == output[i])
        i++;
    return i < r->written || i < written ? 1 + i / DEED_ENTRY : SIZE_MAX;
}

static struct own_replayed own_replay(const uint32_t *code, size_t words, const int32_t *kept, size_t length, size_t lent, int32_t *output, size_t room)
{
    struct own_record r = own_record(kept, length);
    if (r.bad != SIZE_MAX)
        return (struct own_replayed){DEED_BAD_WORD, 0, r.bad, 0};
    if (lent < r.store || room < r.output)
        return (struct own_replayed){DEED_TOO_SHORT, DEED_SHORT, 0, 0};
    struct own_ran ran = own_run(code, words, r.input, r.inputs, r.limit, r.store, output, r.output);
    size_t used = r.store < DEED_STORE ? r.store / DEED_CELL * DEED_CELL : DEED_STORE;
    size_t apart = own_apart(&r, ran.number, output, ran.written);
    return (struct own_replayed){apart == SIZE_MAX ? DEED_AGREES : DEED_DIFFERS, 0, apart == SIZE_MAX ? 0 : apart, used};
}

/* The words of a record; how many. */
static size_t own_keep(int32_t *words, const int32_t *input, size_t inputs, uint64_t limit, size_t store, size_t room, struct own_ran ran, const int32_t *output)
{
    size_t n = 0;
    words[n++] = (int32_t)inputs;
    for (size_t i = 0; i < inputs; i++)
        words[n++] = input[i];
    const int32_t middle[] = {1, (int32_t)(uint32_t)limit, (int32_t)(uint32_t)(limit >> 32), 1, (int32_t)store, 1, (int32_t)room, 1, (int32_t)ran.number,
                              (int32_t)(ran.written / DEED_ENTRY)};
    for (size_t i = 0; i < sizeof middle / sizeof middle[0]; i++)
        words[n++] = middle[i];
    for (size_t i = 0; i < ran.written; i++)
        words[n++] = output[i];
    return n;
}

/* ---- a report */

/* The counts' places among the figures: 0, then 20 to 30. */
static size_t own_counted(unsigned number) { return number == DEED_ENDED ? 0 : number - DEED_LIMIT + 1; }

enum { OWN_WITHOUT = 12, OWN_LEAST, OWN_GREATEST, OWN_SUM };

struct own_reported {
    unsigned kind, number;
    size_t place, runs;
    int64_t figure[DEED_FIGURES];
};

/* One run more, of which this was written; `values` counts the runs with a value. */
static void own_tally(struct own_reported *r, unsigned number, const int32_t *output, size_t written, size_t *values)
{
    size_t i = 0;
    r->runs++;
    r->figure[own_counted(number)]++;
    if (number != DEED_ENDED)
        return;
    while (i < written && output[i] != DEED_WHOLE)
        i += DEED_ENTRY;
    if (i >= written) {
        r->figure[OWN_WITHOUT]++;
        return;
    }
    int64_t x = output[i + 1];
    if (*values == 0 || x < r->figure[OWN_LEAST])
        r->figure[OWN_LEAST] = x;
    if (*values == 0 || x > r->figure[OWN_GREATEST])
        r->figure[OWN_GREATEST] = x;
    r->figure[OWN_SUM] += x;
    (*values)++;
}

static struct own_reported own_report(const uint32_t *code, size_t words, const int32_t *sets, size_t length, uint64_t limit, size_t lent, int32_t *output, size_t room)
{
    struct own_words w = {sets, length, 0, 0};
    struct own_reported r = {DEED_REPORT, 0, 0, 0, {0}};
    size_t values = 0;
    if (length > 0 && sets[0] > DEED_SETS) {
        r.kind = DEED_TOO_MANY, r.number = DEED_TOO_MANY_SETS;
        return r;
    }
    size_t count = (size_t)own_count(&w);
    for (size_t i = 0; i < count && !w.bad; i++)
        for (size_t j = (size_t)own_count(&w); j > 0 && !w.bad; j--)
            own_any(&w);
    own_end(&w);
    if (w.bad) {
        r.kind = DEED_BAD_SET, r.place = w.at;
        return r;
    }
    for (size_t i = 0, at = 1; i < count; at += 1 + (size_t)sets[at], i++) {
        struct own_ran ran = own_run(code, words, sets + at + 1, (size_t)sets[at], limit, lent, output, room);
        own_tally(&r, ran.number, output, ran.written, &values);
    }
    memset(output, 0, room * sizeof output[0]);
    return r;
}

#endif
