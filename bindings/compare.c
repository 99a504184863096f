/* compare COUNT [FILE..]: COUNT random sources, and COUNT random codes with their input, store and output, each handed to the library and to the
 * scanner and machine of own.h; COUNT operators and conversions on random numbers, and COUNT numbers with a point, against the arithmetic of
 * numbers.h; COUNT random sources to the writer of page.h; COUNT lists for sources, and COUNT pairs of editions, against comparisons of their own; COUNT
 * records of runs, most of them changed at random, and COUNT lists of sets, to the replay and the report of months.h; and COUNT preludes with two schemes, each
 * against the one program that they are together. Shows each difference, and how many were compared. The files are sources that are changed at random. The
 * seed is fixed. Ends with 1 where something differs. */
#include <stdio.h>
#include <stdlib.h>
#include <string.h>

#include "codes.h"
#include "deed.h"
#include "months.h"
#include "numbers.h"
#include "own.h"
#include "page.h"
#include "sources.h"

/* Stands around what is lent: the library must leave it alone. */
enum { MARGIN = 16 };

static unsigned long differences;
/* One more than the greatest answer. */
enum { ANSWERS = 32 };

static unsigned long sources_seen[ANSWERS], runs_seen[ANSWERS];

static void differs(const char *what, unsigned long number)
{
    differences++;
    printf("%s %lu differs: ", what, number);
}

/* ---- sources */

enum { TABLE = DEED_TABLE + 64 };

static struct text text;
static struct own_scan scan;
static uint16_t table[TABLE + 2 * MARGIN], before[TABLE + 2 * MARGIN];

static void show_text(void)
{
    printf("; %zu bytes: ", text.length);
    for (size_t i = 0; i < text.length && i < 400; i++)
        printf(text.byte[i] < 32 || text.byte[i] > 126 || text.byte[i] == '\\' ? "\\x%02x" : "%c", text.byte[i]);
    printf("\n");
}

/* The letters, in small, and digits of the name at a place. */
static size_t letters_at(size_t at, uint8_t *letters)
{
    size_t n = 0;
    for (size_t i = at; i < text.length && n < 33; i++) {
        if (own_letter(text.byte[i]) || own_digit(text.byte[i]))
            letters[n++] = own_small(text.byte[i]);
        else if (!own_blank(text.byte[i]))
            break;
    }
    letters[n] = 0;
    return n;
}

/* Whether a name begins at a place, by the own scanner. */
static int is_name(size_t at)
{
    for (size_t i = 0; i < scan.count; i++)
        if (scan.at[i] == at)
            return scan.name[i];
    return 0;
}

static int is_symbol(size_t at)
{
    for (size_t i = 0; i < scan.count; i++)
        if (scan.at[i] == at)
            return 1;
    return 0;
}

/* Each use of an accepted source is a name, in order, and what it names is spelled as it is, letter case aside. */
static const char *wrong_uses(const uint16_t *words)
{
    static const char *const environment[] = {"iabs", "maxint", "ininteger", "outinteger", "outreal"};
    uint8_t used[34], named[34];
    for (unsigned i = 0; i < words[0]; i++) {
        const uint16_t *use = words + 1 + 3 * i;
        if (!is_name(use[0]) || (i > 0 && use[0] <= use[-3]))
            return "a use is no name, or not in order";
        letters_at(use[0], used);
        if (use[1] == 0) {
            if (use[2] > 4 || strcmp(environment[use[2]], (char *)used) != 0)
                return "a use of the environment is spelled otherwise";
        } else {
            letters_at(use[2], named);
            if (use[1] > 3 || !is_name(use[2]) || strcmp((char *)used, (char *)named) != 0)
                return "a use and its declaration are spelled otherwise";
        }
    }
    return NULL;
}

/* What is wrong with the answer and the table; NULL where nothing is. */
static const char *wrong_answer(size_t lent, unsigned number, size_t place)
{
    static const uint16_t zeros[DEED_TABLE];
    const uint16_t *words = table + MARGIN;
    if (lent < DEED_TABLE)
        return number != 1 || place != 0 ? "1 at 0 is due" : memcmp(table, before, sizeof table) != 0 ? "the table has changed" : NULL;
    if (memcmp(table, before, MARGIN * sizeof table[0]) != 0
        || memcmp(words + DEED_TABLE, before + MARGIN + DEED_TABLE, (TABLE + MARGIN - DEED_TABLE) * sizeof table[0]) != 0)
        return "words outside the first 32,768 have changed";
    if (number != 0 && memcmp(words, zeros, sizeof zeros) != 0)
        return "words of a refused source are not zero";
    if (text.length > DEED_SOURCE)
        return number != 2 || place != DEED_SOURCE ? "2 at 16,384 is due" : NULL;
    own_scan(text.byte, text.length, &scan);
    if (scan.number != 0)
        return number != scan.number || place != scan.place ? "the own scanner has another answer" : NULL;
    if (number == 0)
        return place != 0 ? "acceptance has the place 0" : wrong_uses(words);
    if (number < 5 || number > 10)
        return "the own scanner has no fault";
    if (!is_symbol(place) && !(number == 5 && place == text.length))
        return "the place is no symbol's";
    return NULL;
}

static void compare_source(unsigned long k)
{
    size_t lent = once_in(30) ? below(DEED_TABLE) : DEED_TABLE + below(TABLE - DEED_TABLE), place = 99999;
    random_source(&text);
    memcpy(table, before, sizeof table);
    unsigned number = deed_read(text.byte, text.length, table + MARGIN, lent, &place);
    const char *wrong = wrong_answer(lent, number, place);
    if (number < ANSWERS)
        sources_seen[number]++;
    if (wrong != NULL) {
        differs("source", k);
        printf("%s: library %u at %zu, own %u at %zu", wrong, number, place, scan.number, scan.place);
        show_text();
    }
}

/* ---- runs */

enum { STORE_ROOM = DEED_STORE + 200, INPUTS = 12, OUTPUTS = 150 };

static struct code code;
static int32_t input[INPUTS];
static int64_t store[STORE_ROOM + 2 * MARGIN], store_before[STORE_ROOM + 2 * MARGIN];
static int32_t output[OUTPUTS + 2 * MARGIN], own_output[OUTPUTS + 2 * MARGIN];

static const char *wrong_run(struct own_ran l, struct own_ran o, size_t lent)
{
    size_t used = lent < DEED_STORE ? lent / DEED_CELL * DEED_CELL : DEED_STORE;
    if (l.number != o.number || l.place != o.place)
        return "another answer or place";
    if (l.done != o.done || l.taken != o.taken || l.written != o.written)
        return "other counts";
    if (memcmp(output, own_output, sizeof output) != 0)
        return "another output";
    for (size_t i = 0; i < used; i++)
        if (store[MARGIN + i] != 0)
            return "a store number that is not zero";
    if (memcmp(store, store_before, MARGIN * sizeof store[0]) != 0
        || memcmp(store + MARGIN + used, store_before + MARGIN + used, sizeof store - (MARGIN + used) * sizeof store[0]) != 0)
        return "a store number behind those that are used has changed";
    return NULL;
}

static void show_ran(const char *who, struct own_ran r)
{
    printf("; %s %u at %zu, done %llu, taken %zu, written %zu", who, r.number, r.place, (unsigned long long)r.done, r.taken, r.written);
}

/* One run of both, on what stands in `code` and `input`; hands back what the library answers. */
static struct own_ran compare_run(unsigned long k, size_t inputs, uint64_t limit, size_t lent, size_t outputs)
{
    struct own_ran l, o;
    for (size_t i = 0; i < OUTPUTS + 2 * MARGIN; i++)
        output[i] = own_output[i] = (int32_t)random_word();
    memcpy(store, store_before, sizeof store);
    l.number = deed_run(code.word, code.length, input, inputs, limit, store + MARGIN, lent, output + MARGIN, outputs, &l.place, &l.done, &l.taken, &l.written);
    o = own_run(code.word, code.length, input, inputs, limit, lent, own_output + MARGIN, outputs);
    const char *wrong = wrong_run(l, o, lent);
    if (l.number < ANSWERS)
        runs_seen[l.number]++;
    if (wrong != NULL) {
        differs("run", k);
        printf("%s", wrong);
        show_ran("library", l);
        show_ran("own", o);
        printf("; input %zu, limit %llu, store %zu, output %zu; %zu words:", inputs, (unsigned long long)limit, lent, outputs, code.length);
        for (size_t i = 0; i < code.length && i < 400; i++)
            printf(" %lu", (unsigned long)code.word[i]);
        printf("\n");
    }
    return l;
}

static void compare_code(unsigned long k)
{
    static const int32_t edges[] = {0, 1, -1, 5, 12, 13, 254, 255, 256, INT32_MAX, INT32_MIN, INT32_MIN + 1};
    size_t inputs = below(INPUTS + 1), outputs = below(once_in(3) ? 9 : OUTPUTS + 1);
    size_t lent = once_in(10) ? DEED_STORE - 100 + below(300) : once_in(3) ? below(48) : once_in(3) ? below(800) : 200 + below(16000);
    uint64_t limit = once_in(8) ? below(40) : once_in(3) ? below(500) : 1000 + below(20000);
    random_code(&code);
    for (size_t i = 0; i < INPUTS; i++)
        input[i] = once_in(2) ? edges[below(12)] : (int32_t)below(20);
    struct own_ran r = compare_run(k, inputs, limit, lent, outputs);
    /* A run that stops by itself answers so under the greatest limit too, and under each smaller one it is cut. */
    if (r.number != 20 && once_in(4))
        compare_run(k, inputs, UINT64_MAX, lent, outputs);
    if (r.done <= 60 && once_in(20))
        for (uint64_t i = 0; i <= r.done + 1; i++)
            compare_run(k, inputs, i, lent, outputs);
}

/* ---- translations: answered as read answers, and run alike by both machines */

enum { CODE = DEED_CODE + 64 };

static unsigned long translations_seen[ANSWERS];
static uint32_t words_after[CODE + 2 * MARGIN], words_before[CODE + 2 * MARGIN];

static const char *wrong_translation(size_t lent, unsigned number, size_t place)
{
    static const uint32_t zeros[DEED_CODE];
    const uint32_t *after = words_after + MARGIN;
    size_t read_place = 0;
    unsigned read = deed_read(text.byte, text.length, table + MARGIN, TABLE, &read_place);
    if (lent < DEED_CODE)
        return number != 1 || place != 0 ? "1 at 0 is due" : memcmp(words_after, words_before, sizeof words_after) != 0 ? "the code has changed" : NULL;
    if (number != read || place != read_place)
        return "read has another answer";
    if (memcmp(words_after, words_before, MARGIN * sizeof words_after[0]) != 0
        || memcmp(after + DEED_CODE, words_before + MARGIN + DEED_CODE, (CODE + MARGIN - DEED_CODE) * sizeof words_after[0]) != 0)
        return "words outside the first 16,384 have changed";
    return number != 0 && memcmp(after, zeros, sizeof zeros) != 0 ? "words of a refused source are not zero" : NULL;
}

static void compare_translation(unsigned long k)
{
    size_t lent = once_in(30) ? below(DEED_CODE) : DEED_CODE + below(CODE - DEED_CODE), place = 99999;
    random_source(&text);
    memcpy(words_after, words_before, sizeof words_after);
    unsigned number = deed_translate(text.byte, text.length, words_after + MARGIN, lent, &place);
    const char *wrong = wrong_translation(lent, number, place);
    if (number < ANSWERS)
        translations_seen[number]++;
    if (wrong == NULL && number == 0) {
        memcpy(code.word, words_after + MARGIN, DEED_CODE * sizeof code.word[0]);
        code.length = DEED_CODE;
        for (size_t i = 0; i < INPUTS; i++)
            input[i] = (int32_t)below(20);
        if (compare_run(k, below(INPUTS + 1), 1000 + below(20000), once_in(4) ? below(48) : DEED_STORE, below(OUTPUTS + 1)).number == 29)
            wrong = "a translated program stops with 29";
    }
    if (wrong != NULL) {
        differs("translation", k);
        printf("%s: %u at %zu", wrong, number, place);
        show_text();
    }
}

/* ---- numbers: one operator, one conversion or one number with a point, against what numbers.h works out */

static unsigned long numbers_seen[ANSWERS];

static void compare_number(unsigned long k, const char *what, struct due due)
{
    static int64_t cells[16];
    int32_t entry[DEED_ENTRY] = {0, 0, 0};
    size_t place, taken, written;
    uint64_t done;
    unsigned number = deed_run(code.word, code.length, input, 0, 1000, cells, 16, entry, DEED_ENTRY, &place, &done, &taken, &written);
    if (number < ANSWERS)
        numbers_seen[number]++;
    if (number == due.number && written == (number == 0 ? DEED_ENTRY : 0) && memcmp(entry, due.entry, sizeof entry) == 0)
        return;
    differs("number", k);
    printf("library %u, %ld %ld %ld, due %u, %ld %ld %ld; %s, %zu words:", number, (long)entry[0], (long)entry[1], (long)entry[2], due.number,
           (long)due.entry[0], (long)due.entry[1], (long)due.entry[2], what, code.length);
    for (size_t i = 0; i < code.length && i < 32; i++)
        printf(" %lu", (unsigned long)code.word[i]);
    printf("\n");
}

static void compare_numbers(unsigned long k)
{
    code.length = 0;
    struct due due = number_code(&code);
    compare_number(k, "an operator or a conversion", due);
    char source[100];
    size_t place;
    due = decimal_source(source, sizeof source);
    if (deed_translate((const uint8_t *)source, strlen(source), code.word, WORDS, &place) != DEED_ACCEPTED) {
        differs("number", k);
        printf("a number with a point is refused: %s\n", source);
        return;
    }
    code.length = DEED_CODE;
    compare_number(k, source, due);
}

/* ---- pages */

enum { ROOM = DEED_SOURCE + 200 };

static unsigned long pages_seen[ANSWERS];
static uint8_t room[ROOM + 2 * MARGIN], room_due[ROOM + 2 * MARGIN], room_before[ROOM + 2 * MARGIN];
static uint16_t table_again[TABLE];

/* The number of the declaration at a place, by its row. */
static unsigned declaration_at(const uint16_t *words, uint16_t at)
{
    const uint16_t *rows = words + 1 + 3 * words[0];
    unsigned j = 0;
    while (j < rows[0] && rows[1 + 4 * j] != at)
        j++;
    return j;
}

/* Whether use i means the same in two tables: kind, and declaration number or environment number. */
static int meant_alike(const uint16_t *a, const uint16_t *b, unsigned i)
{
    const uint16_t *x = a + 1 + 3 * i, *y = b + 1 + 3 * i;
    return x[1] == y[1] && (x[1] == 0 ? x[2] == y[2] : declaration_at(a, x[2]) == declaration_at(b, y[2]));
}

/* Whether two use sections pair uses with declarations alike. */
static int paired_alike(const uint16_t *a, const uint16_t *b)
{
    unsigned i = 0;
    while (i < a[0] && i < b[0] && meant_alike(a, b, i))
        i++;
    return i == a[0] && i == b[0];
}

/* What is wrong with the page, read and written again: `size` bytes, of the source whose words are in `table`. */
static const char *wrong_again(size_t size)
{
    static uint8_t again[DEED_SOURCE];
    size_t place = 99999, length = 99999;
    if (deed_read(room + MARGIN, size, table_again, TABLE, &place) != 0 || place != 0)
        return "the page is not accepted";
    if (!paired_alike(table + MARGIN, table_again))
        return "uses and declarations are not paired alike";
    if (deed_write(room + MARGIN, size, again, DEED_SOURCE, &place, &length) != 0 || place != 0 || length != size || memcmp(again, room + MARGIN, size) != 0)
        return "the page is written otherwise";
    static uint32_t code_of_source[DEED_CODE], code_of_page[DEED_CODE];
    deed_translate(text.byte, text.length, code_of_source, DEED_CODE, &place);
    deed_translate(room + MARGIN, size, code_of_page, DEED_CODE, &place);
    for (unsigned i = 0; i < DEED_CODE; i += 2) /* operation, and behind it the place */
        if ((code_of_source[i] & 63) != (code_of_page[i] & 63) || code_of_source[i + 1] != code_of_page[i + 1])
            return "the page has another translation";
    return NULL;
}

static void compare_page(unsigned long k)
{
    size_t lent, due_place = 0, due_length = 0, place = 99999, length = 99999;
    if (once_in(3))
        random_source(&text);
    else
        random_likely(&text);
    unsigned due = deed_read(text.byte, text.length, table + MARGIN, TABLE, &due_place);
    lent = once_in(4) ? below(ROOM) : DEED_SOURCE + below(ROOM - DEED_SOURCE);
    if (due == 0) {
        own_scan(text.byte, text.length, &scan);
        own_write(text.byte, text.length, &scan);
        if (once_in(4) && page.size <= ROOM)
            lent = page.size - below(2);
        if (page.size > DEED_SOURCE) {
            due = 2;
            due_place = DEED_SOURCE;
        } else if (lent < page.size)
            due = 1;
        else
            due_length = page.size;
    }
    memcpy(room, room_before, sizeof room);
    memcpy(room_due, room_before, sizeof room);
    memcpy(room_due + MARGIN, page.byte, due_length);
    unsigned number = deed_write(text.byte, text.length, room + MARGIN, lent, &place, &length);
    const char *wrong = number != due || place != due_place || length != due_length ? "the own writer has another answer"
        : memcmp(room, room_due, sizeof room) != 0 ? "the own writer has another page, or what is around it has changed"
        : number == 0 ? wrong_again(length) : NULL;
    if (number < ANSWERS)
        pages_seen[number]++;
    if (wrong != NULL) {
        differs("page", k);
        printf("%s: library %u at %zu, %zu bytes, own %u at %zu, %zu bytes, in %zu", wrong, number, place, length, due, due_place, due_length, lent);
        show_text();
    }
}

/* ---- lists: a source's uses, with words changed, missing or added, against a comparison word by word */

enum { LIST = 3 * 4096 };

static unsigned long lists_seen[ANSWERS];
static int64_t list[LIST], list_before[LIST];

/* The uses as `read` has them, and how many words. */
static size_t honest_list(void)
{
    const uint16_t *words = table + MARGIN;
    size_t length = 1 + 3 * (size_t)words[0];
    for (size_t i = 0; i < length && i < LIST; i++)
        list[i] = words[i];
    return length < LIST ? length : LIST;
}

/* Changes a list at random, or leaves it; its length then. */
static size_t changed_list(size_t length)
{
    static const int64_t edges[] = {0, 1, -1, 3, 65535, 65536, 65537, -65535, INT32_MAX, INT64_MAX, INT64_MIN};
    switch (below(5)) {
    case 0:
        list[below(length)] = edges[below(11)];
        return length;
    case 1:
        list[below(length)] += once_in(2) ? 65536 : 1;
        return length;
    case 2:
        return below(length);
    case 3:
        list[length] = (int64_t)below(5);
        return length + 1 + below(4);
    default:
        return length;
    }
}

static size_t own_first_wrong(size_t length, const uint16_t *words, size_t due)
{
    size_t i = 0;
    while (i < length && i < due && list[i] == (int64_t)words[i])
        i++;
    return i;
}

static void compare_list(unsigned long k)
{
    size_t read_place = 0, place = 99999, due = 0, length = below(20);
    uint16_t number = 999;
    random_source(&text);
    unsigned read = deed_read(text.byte, text.length, table + MARGIN, TABLE, &read_place);
    memset(list, 0, sizeof list);
    if (read == 0) {
        due = honest_list();
        if (due + 8 >= LIST)
            return;
        length = changed_list(due);
    }
    memcpy(list_before, list, sizeof list);
    unsigned kind = deed_check(text.byte, text.length, list, length, &number, &place);
    size_t wrong = own_first_wrong(length, table + MARGIN, due);
    unsigned own_kind = read != 0 ? DEED_REFUSED : wrong < length || wrong < due ? DEED_WRONG_WORD : DEED_IS_LIST;
    size_t own_place = own_kind == DEED_REFUSED ? read_place : own_kind == DEED_WRONG_WORD ? wrong : 0;
    if (kind < ANSWERS)
        lists_seen[kind]++;
    if (kind != own_kind || number != (own_kind == DEED_REFUSED ? read : 0) || place != own_place || memcmp(list, list_before, sizeof list) != 0) {
        differs("list", k);
        printf("library %u, %u at %zu, own %u, %u at %zu; %zu words", kind, number, place, own_kind, read, own_place, length);
        show_text();
    }
}

/* ---- editions: two sources, most of them alike, against a comparison of their tables, use by use */

enum { CHANGES = 2048 };

static unsigned long editions_seen[ANSWERS];
static struct text edition;
static uint16_t changes[CHANGES + 2 * MARGIN], changes_due[CHANGES + 2 * MARGIN];

static void random_editions(void)
{
    if (once_in(4))
        random_source(&text);
    else
        random_likely(&text);
    if (once_in(8)) {
        random_likely(&edition);
        return;
    }
    edition = text;
    if (!once_in(4))
        change(&edition, 1 + below(2));
}

/* The numbers of the uses that differ, by the two tables; how many. */
static size_t own_changes(const uint16_t *a, const uint16_t *b, uint16_t *due)
{
    size_t n = 0;
    for (unsigned i = 0; i < a[0] || i < b[0]; i++)
        if (i >= a[0] || i >= b[0] || !meant_alike(a, b, i))
            due[n++] = (uint16_t)i;
    return n;
}

static void compare_edition(unsigned long k)
{
    size_t first_place = 0, second_place = 0, place = 99999, lent = below(CHANGES + 1), due_place;
    uint16_t number = 999;
    unsigned kind, own_kind = DEED_LISTED, due_number = 0;
    random_editions();
    unsigned first = deed_read(text.byte, text.length, table + MARGIN, TABLE, &first_place);
    unsigned second = deed_read(edition.byte, edition.length, table_again, TABLE, &second_place);
    memcpy(changes, before, sizeof changes);
    memcpy(changes_due, before, sizeof changes);
    if (first != 0 || second != 0) {
        own_kind = first != 0 ? DEED_FIRST_REFUSED : DEED_SECOND_REFUSED;
        due_number = first != 0 ? first : second;
        due_place = first != 0 ? first_place : second_place;
    } else {
        due_place = own_changes(table + MARGIN, table_again, changes_due + MARGIN);
        if (once_in(3))
            lent = once_in(2) || due_place == 0 ? due_place : due_place - 1;
        if (lent < due_place) {
            own_kind = DEED_NO_ROOM;
            due_number = DEED_SHORT;
            due_place = 0;
            memcpy(changes_due, before, sizeof changes);
        }
    }
    kind = deed_compare(text.byte, text.length, edition.byte, edition.length, changes + MARGIN, lent, &number, &place);
    if (kind < ANSWERS)
        editions_seen[kind]++;
    if (kind != own_kind || number != due_number || place != due_place || memcmp(changes, changes_due, sizeof changes) != 0) {
        differs("edition", k);
        printf("library %u, %u at %zu, own %u, %u at %zu; room %zu", kind, number, place, own_kind, due_number, due_place, lent);
        show_text();
        text = edition;
        show_text();
    }
}

/* ---- records: of a run by the own machine, with words changed, missing or added, replayed by both */

enum { KEPT = 11 + INPUTS + OUTPUTS + 8 };

static unsigned long records_seen[ANSWERS];
static int32_t kept[KEPT];

/* Changes a record at random, or leaves it; its length then. */
static size_t changed_record(size_t length, size_t inputs)
{
    static const int32_t edges[] = {0, 1, 2, -1, 19, 20, 26, 30, 31, 3, 1000, INT32_MAX, INT32_MIN};
    switch (below(8)) {
    case 0:
        kept[below((uint32_t)length)] = edges[below(13)];
        return length;
    case 1:
        kept[inputs + 2 + below((uint32_t)(length - inputs - 2))] += 1;
        return length;
    case 2:
        return below((uint32_t)length);
    case 3:
        kept[length] = edges[below(13)];
        return length + 1 + below(4);
    case 4: /* an entry less, or one more */
        if (once_in(2)) {
            kept[inputs + 10]++;
            kept[length] = (int32_t)below(2);
            kept[length + 1] = (int32_t)below(9);
            kept[length + 2] = 0;
            return length + 3;
        }
        if (kept[inputs + 10] > 0) {
            kept[inputs + 10]--;
            return length - 3;
        }
        return length;
    default:
        return length;
    }
}

static const char *wrong_replay(unsigned kind, unsigned number, size_t place, struct own_replayed o)
{
    if (kind != o.kind || number != o.number || place != o.place)
        return "another answer or place";
    if (memcmp(output, own_output, sizeof output) != 0)
        return "another output";
    for (size_t i = 0; i < o.cleared; i++)
        if (store[MARGIN + i] != 0)
            return "a store number that is not zero";
    if (memcmp(store, store_before, MARGIN * sizeof store[0]) != 0
        || memcmp(store + MARGIN + o.cleared, store_before + MARGIN + o.cleared, sizeof store - (MARGIN + o.cleared) * sizeof store[0]) != 0)
        return "a store number that is not the run's has changed";
    return NULL;
}

static void compare_record(unsigned long k)
{
    size_t inputs = below(INPUTS + 1), out = below(once_in(3) ? 9 : OUTPUTS + 1), lent = once_in(4) ? below(48) : below(800), place = 99999;
    uint64_t limit = once_in(8) ? below(40) : 1000 + below(20000);
    uint16_t number = 999;
    random_code(&code);
    for (size_t i = 0; i < INPUTS; i++)
        input[i] = (int32_t)below(20);
    struct own_ran ran = own_run(code.word, code.length, input, inputs, limit, lent, own_output, out);
    memset(kept, 0, sizeof kept);
    size_t length = changed_record(own_keep(kept, input, inputs, limit, lent, out, ran, own_output), inputs);
    struct own_record r = own_record(kept, length);
    if (r.bad == SIZE_MAX && r.limit > 1000000) /* a run that does not end by itself is to end soon */
        kept[r.inputs + 3] = 0, kept[r.inputs + 2] = 1000;
    for (size_t i = 0; i < OUTPUTS + 2 * MARGIN; i++)
        output[i] = own_output[i] = (int32_t)random_word();
    memcpy(store, store_before, sizeof store);
    size_t store_lent = once_in(10) ? below((uint32_t)lent + 1) : lent + below(100), output_lent = once_in(10) ? below((uint32_t)out + 1) : out + below((uint32_t)(OUTPUTS - out + 1));
    unsigned kind = deed_replay(code.word, code.length, kept, length, store + MARGIN, store_lent, output + MARGIN, output_lent, &number, &place);
    struct own_replayed o = own_replay(code.word, code.length, kept, length, store_lent, own_output + MARGIN, output_lent);
    const char *wrong = wrong_replay(kind, number, place, o);
    if (kind < ANSWERS)
        records_seen[kind]++;
    if (wrong != NULL) {
        differs("record", k);
        printf("%s: library %u, %u at %zu, own %u, %u at %zu; store %zu, output %zu; %zu words:", wrong, kind, number, place, o.kind, o.number, o.place, store_lent, output_lent, length);
        for (size_t i = 0; i < length; i++)
            printf(" %ld", (long)kept[i]);
        printf("\n");
    }
}

/* ---- sets of input, some with words changed, missing or added, reported by both */

enum { SETS = 200 };

static unsigned long reports_seen[ANSWERS];
static int32_t sets[SETS];

/* Sets at random; how many words. */
static size_t random_sets(void)
{
    static const int32_t edges[] = {0, 1, -1, 5, 65535, 65536, INT32_MAX, INT32_MIN};
    size_t n = 1;
    sets[0] = (int32_t)below(12);
    for (int32_t i = 0; i < sets[0]; i++) {
        int32_t m = sets[n++] = (int32_t)below(INPUTS);
        for (int32_t j = 0; j < m; j++)
            sets[n++] = once_in(4) ? edges[below(8)] : (int32_t)below(20);
    }
    switch (below(8)) {
    case 0:
        sets[below((uint32_t)n)] = edges[below(8)];
        return n;
    case 1:
        return below((uint32_t)n + 1);
    case 2:
        sets[n] = (int32_t)below(3);
        return n + 1;
    default:
        return n;
    }
}

static void compare_report(unsigned long k)
{
    size_t out = below(once_in(3) ? 9 : OUTPUTS + 1), lent = once_in(4) ? below(48) : below(800), place = 99999, length, most = below(DEED_FIGURES + 3);
    uint64_t limit = once_in(8) ? below(40) : 1000 + below(5000);
    uint16_t number = 999;
    int64_t figures[DEED_FIGURES + 2], due[DEED_FIGURES + 2];
    random_code(&code);
    memset(sets, 0, sizeof sets);
    length = random_sets();
    for (size_t i = 0; i < OUTPUTS + 2 * MARGIN; i++)
        output[i] = own_output[i] = (int32_t)random_word();
    for (size_t i = 0; i < DEED_FIGURES + 2; i++)
        figures[i] = due[i] = random_word();
    memcpy(store, store_before, sizeof store);
    unsigned kind = deed_report(code.word, code.length, sets, length, limit, store + MARGIN, lent, output + MARGIN, out, figures, most, &number, &place);
    struct own_reported o = own_report(code.word, code.length, sets, length, limit, lent, own_output + MARGIN, out);
    for (size_t i = 0; o.kind == DEED_REPORT && i < most && i < DEED_FIGURES; i++)
        due[i] = o.figure[i];
    struct own_replayed r = {o.kind, o.number, o.place, o.runs == 0 ? 0 : lent < DEED_STORE ? lent / DEED_CELL * DEED_CELL : DEED_STORE};
    const char *wrong = wrong_replay(kind, number, place, r);
    if (wrong == NULL && memcmp(figures, due, sizeof due) != 0)
        wrong = "other figures";
    if (kind < ANSWERS)
        reports_seen[kind]++;
    if (wrong != NULL) {
        differs("report", k);
        printf("%s: library %u, %u at %zu, own %u, %u at %zu; store %zu, output %zu; %zu words:", wrong, kind, number, place, o.kind, o.number, o.place, lent, out, length);
        for (size_t i = 0; i < length; i++)
            printf(" %ld", (long)sets[i]);
        printf("\n");
    }
}

/* ---- the whole */

/* ---- pairs: two schemes behind a prelude. A scheme behind a prelude is the program 'begin' PRELUDE SCHEME 'end', a block deeper; an empty prelude is none */

static unsigned long pairs_seen[ANSWERS];
static struct text prelude, schemes[2], whole;
static uint16_t halves[TABLE + 2 * MARGIN], swapped[TABLE + 2 * MARGIN], together[DEED_TABLE];

static void put_all(struct text *t, const struct text *piece)
{
    for (size_t i = 0; i < piece->length; i++)
        put_byte(t, piece->byte[i]);
}

/* Some procedures, of which a few have a fault or are changed. */
static void random_prelude(struct text *t)
{
    static const char *const procedures[] = {"'integer' 'procedure' a; a := 1;", "'integer' 'procedure' b(x); 'value' x; 'integer' x; b := x + 1;",
                                             "'procedure' p; outinteger(1, 2);", "'real' 'procedure' r; r := 2.5;", "'procedure' q(x); 'integer' x; x := x + 1;",
                                             "'procedure' twice; 'begin' 'integer' a; a := 3; outinteger(1, a) 'end';", "'integer' 'procedure' none; none := other;"};
    t->length = 0;
    if (once_in(5)) {
        put_blanks(t);
        return;
    }
    for (unsigned i = 0; i < 6; i++)
        if (once_in(2)) {
            put_text(t, procedures[i]);
            put_blanks(t);
        }
    if (once_in(10))
        put_text(t, procedures[below(7)]);
    if (once_in(6))
        change(t, 1 + below(2));
}

static int is_empty(const struct text *t)
{
    for (size_t i = 0; i < t->length; i++)
        if (!own_blank(t->byte[i]))
            return 0;
    return 1;
}

/* The uses of an accepted scheme, against those of the one program: the prelude begins at 7, the scheme a byte behind it. */
static const char *wrong_half(const struct text *scheme, const uint16_t *half)
{
    size_t place = 0, at = 7 + prelude.length + 1;
    unsigned skipped = 0;
    whole.length = 0;
    put_text(&whole, "'begin'");
    put_all(&whole, &prelude);
    put_text(&whole, " ");
    put_all(&whole, scheme);
    put_text(&whole, " 'end'");
    unsigned number = deed_read(whole.byte, whole.length, together, DEED_TABLE, &place);
    if (number != 0) /* one block deeper, and longer */
        return number == DEED_DEPTH || (number == DEED_LONG && whole.length > DEED_SOURCE) ? NULL : "the one program is refused";
    while (skipped < together[0] && together[1 + 3 * skipped] < at)
        skipped++;
    if (together[0] - skipped != half[0])
        return "the one program has another number of uses";
    for (unsigned i = 0; i < half[0]; i++) {
        const uint16_t *due = together + 1 + 3 * (skipped + i), *use = half + 1 + 3 * i;
        int before_it = due[1] != 0 && due[2] < at;
        size_t declared = due[1] == 0 ? due[2] : before_it ? due[2] - 7 + (size_t)DEED_BEYOND : due[2] - at;
        if (use[0] != due[0] - at || use[1] != (before_it ? 4 : due[1]) || use[2] != declared)
            return "a use is not the one program's";
    }
    return NULL;
}

static const char *wrong_pair(size_t lent, const unsigned *number, const size_t *place)
{
    static const uint16_t zeros[DEED_HALF];
    const uint16_t *words = halves + MARGIN;
    if (lent < DEED_TABLE)
        return number[0] != 1 || number[1] != 1 || place[0] != 0 || place[1] != 0 ? "1 at 0 is due"
            : memcmp(halves, before, sizeof halves) != 0 ? "the table has changed" : NULL;
    if (memcmp(halves, before, MARGIN * sizeof halves[0]) != 0
        || memcmp(words + DEED_TABLE, before + MARGIN + DEED_TABLE, (TABLE + MARGIN - DEED_TABLE) * sizeof halves[0]) != 0)
        return "words outside the halves have changed";
    for (int i = 0; i < 2; i++) {
        const uint16_t *half = words + (size_t)i * DEED_HALF;
        if (number[i] != 0 && memcmp(half, zeros, sizeof zeros) != 0)
            return "a word of a refused scheme's half is not zero";
        if (number[i] != 0 && place[i] >= DEED_BEYOND && (number[1 - i] != number[i] || place[1 - i] != place[i]))
            return "a refusal of the prelude is not both's";
        size_t read_place = 0;
        unsigned read = deed_read(schemes[i].byte, schemes[i].length, together, DEED_TABLE, &read_place);
        if (is_empty(&prelude) && number[i] != 4 && (number[i] != read || place[i] != read_place || memcmp(half, together, DEED_HALF * sizeof half[0]) != 0))
            return "behind an empty prelude a scheme is otherwise";
        const char *wrong = number[i] == 0 && !is_empty(&prelude) ? wrong_half(&schemes[i], half) : NULL;
        if (wrong != NULL)
            return wrong;
    }
    return NULL;
}

/* The schemes in the other order: each has the same answer and the same words. */
static const char *wrong_order(const unsigned *number, const size_t *place)
{
    size_t first = 0, second = 0;
    uint16_t other = 0;
    unsigned one = deed_read_two(prelude.byte, prelude.length, schemes[1].byte, schemes[1].length, schemes[0].byte, schemes[0].length,
                                 swapped + MARGIN, DEED_TABLE, &first, &other, &second);
    const uint16_t *words = halves + MARGIN, *turned = swapped + MARGIN;
    return one != number[1] || first != place[1] || other != number[0] || second != place[0]
            || memcmp(words, turned + DEED_HALF, DEED_HALF * sizeof words[0]) != 0 || memcmp(words + DEED_HALF, turned, DEED_HALF * sizeof words[0]) != 0
        ? "in the other order they are otherwise" : NULL;
}

static void compare_pair(unsigned long k)
{
    size_t lent = once_in(30) ? below(DEED_TABLE) : DEED_TABLE + below(TABLE - DEED_TABLE), place[2] = {99999, 99999};
    uint16_t other = 99;
    random_prelude(&prelude);
    for (int i = 0; i < 2; i++)
        if (once_in(3))
            random_source(&schemes[i]);
        else
            random_likely(&schemes[i]);
    memcpy(halves, before, sizeof halves);
    unsigned number[2];
    number[0] = deed_read_two(prelude.byte, prelude.length, schemes[0].byte, schemes[0].length, schemes[1].byte, schemes[1].length,
                              halves + MARGIN, lent, &place[0], &other, &place[1]);
    number[1] = other;
    for (int i = 0; i < 2; i++)
        if (number[i] < ANSWERS)
            pairs_seen[number[i]]++;
    const char *wrong = wrong_pair(lent, number, place);
    if (wrong == NULL && lent >= DEED_TABLE)
        wrong = wrong_order(number, place);
    if (wrong != NULL) {
        differs("pair", k);
        printf("%s: %u at %zu, %u at %zu", wrong, number[0], place[0], number[1], place[1]);
        text = prelude;
        show_text();
    }
}

static void show_seen(const char *what, const unsigned long *seen)
{
    unsigned long sum = 0;
    for (unsigned i = 0; i < ANSWERS; i++)
        sum += seen[i];
    printf("%lu %s; answers", sum, what);
    for (unsigned i = 0; i < ANSWERS; i++)
        if (seen[i] != 0)
            printf(" %u: %lu", i, seen[i]);
    printf("\n");
}

int main(int argc, char **argv)
{
    unsigned long count = argc > 1 ? strtoul(argv[1], NULL, 10) : 0;
    if (count == 0) {
        fprintf(stderr, "usage: compare COUNT [FILE..]\n");
        return 2;
    }
    for (int i = 2; i < argc; i++)
        load_file(argv[i]);
    random_state = 60;
    for (size_t i = 0; i < sizeof before / sizeof before[0]; i++)
        before[i] = (uint16_t)random_word();
    for (size_t i = 0; i < sizeof store_before / sizeof store_before[0]; i++)
        store_before[i] = (int64_t)(((uint64_t)random_word() << 32) | random_word());
    for (unsigned long k = 0; k < count; k++)
        compare_source(k);
    show_seen("sources compared", sources_seen);
    for (unsigned long k = 0; k < count; k++)
        compare_code(k);
    for (size_t i = 0; i < sizeof words_before / sizeof words_before[0]; i++)
        words_before[i] = random_word();
    for (unsigned long k = 0; k < count; k++)
        compare_translation(k);
    show_seen("translations compared", translations_seen);
    show_seen("runs compared", runs_seen);
    for (unsigned long k = 0; k < count; k++)
        compare_numbers(k);
    show_seen("numbers compared", numbers_seen);
    for (size_t i = 0; i < sizeof room_before; i++)
        room_before[i] = (uint8_t)random_word();
    for (unsigned long k = 0; k < count; k++)
        compare_page(k);
    show_seen("pages compared", pages_seen);
    for (unsigned long k = 0; k < count; k++)
        compare_list(k);
    show_seen("lists compared", lists_seen);
    for (unsigned long k = 0; k < count; k++)
        compare_edition(k);
    show_seen("editions compared", editions_seen);
    for (unsigned long k = 0; k < count; k++)
        compare_record(k);
    show_seen("records compared", records_seen);
    for (unsigned long k = 0; k < count; k++)
        compare_pair(k);
    show_seen("halves compared", pairs_seen);
    for (unsigned long k = 0; k < count; k++)
        compare_report(k);
    show_seen("reports compared", reports_seen);
    printf("%lu differ\n", differences);
    return differences == 0 ? 0 : 1;
}
