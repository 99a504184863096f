/* A writer of its own, from request 2's layout as it is laid down construct by construct: a function for each, over the symbols of own_scan.
 * For accepted sources alone: of the grammar it knows only what the layout asks. */
#ifndef PAGE_H
#define PAGE_H

#include <stdlib.h>
#include <string.h>

#include "own.h"

enum { PAGE = 1 << 20 };

static struct {
    const uint8_t *source;
    size_t length;
    const struct own_scan *scan;
    size_t k;       /* the next symbol */
    int fresh;      /* a line has begun, and nothing stands on it yet */
    unsigned level; /* .. at which level */
    size_t size;
    uint8_t byte[PAGE];
} page;

static void page_put(uint8_t b)
{
    if (page.size == PAGE)
        abort();
    page.byte[page.size++] = b;
}

/* Whether symbol k is this word or sign; none is behind the last, or before the first. */
static int page_is(size_t k, const char *symbol)
{
    size_t n = strlen(symbol);
    return k < page.scan->count && page.scan->at[k] + n <= page.length && own_same(page.source + page.scan->at[k], symbol, n);
}

static int page_one_of(size_t k, const char *const *symbols)
{
    for (; *symbols != NULL; symbols++)
        if (page_is(k, *symbols))
            return 1;
    return 0;
}

static int page_is_number(size_t k) { return own_digit(page.source[page.scan->at[k]]) || page.source[page.scan->at[k]] == '.'; }

static int page_is_operand(size_t k)
{
    static const char *const ends[] = {")", "'true'", "'false'", NULL};
    return k < page.scan->count && (page.scan->name[k] || page_is_number(k) || page_one_of(k, ends));
}

/* Whether symbol k goes on in the line without a space. */
static int page_tight(size_t k)
{
    static const char *const closing[] = {")", ",", ";", NULL}, *const sign[] = {"+", "-", NULL};
    if (page_is(k - 1, "(") || page_one_of(k, closing) || (page.scan->name[k - 1] && page_is(k, "(")))
        return 1;
    return page_one_of(k - 1, sign) && !page_is_operand(k - 2);
}

/* Whether a name, or a number, goes on with this byte. In an accepted source no number stands behind another. */
static int page_goes_on(int name, uint8_t b) { return own_digit(b) || (name ? own_letter(b) : b == '.'); }

/* A symbol without the blanks in it: a delimiter word in the house's spelling, a name in its own. */
static void page_spell(size_t i)
{
    uint8_t first = page.source[i];
    page_put(first);
    i++;
    if (first == '\'') {
        size_t n = 0;
        while (page.source[i + n] != '\'')
            n++;
        const struct own_delimiter *d = own_delimiter(page.source + i, n);
        if (d == NULL)
            abort();
        for (size_t k = 0; k < n; k++)
            page_put((uint8_t)d->text[k]);
        page_put('\'');
    } else if (own_letter(first) || own_digit(first) || first == '.') {
        for (; i < page.length && (own_blank(page.source[i]) || page_goes_on(own_letter(first), page.source[i])); i++)
            if (!own_blank(page.source[i]))
                page_put(page.source[i]);
    } else if (first == '<' || first == '>' || first == ':') {
        while (i < page.length && own_blank(page.source[i]))
            i++;
        if (i < page.length && page.source[i] == '=')
            page_put('=');
    }
}

/* The next symbol. */
static void page_go(void)
{
    if (page.k == page.scan->count)
        abort();
    if (page.fresh)
        for (unsigned i = 0; i < 2 * page.level; i++)
            page_put(' ');
    else if (page.k > 0 && !page_tight(page.k))
        page_put(' ');
    page.fresh = 0;
    page_spell(page.scan->at[page.k++]);
}

/* .. and all up to this one. */
static void page_through(const char *symbol)
{
    while (!page_is(page.k, symbol))
        page_go();
    page_go();
}

static void page_line(unsigned level)
{
    page_put('\n');
    page.fresh = 1;
    page.level = level;
}

static void page_statement(unsigned v);

/* 'if' E 'then'; each 'then' is that of the last 'if' without one. */
static void page_condition(void)
{
    unsigned ifs = 0;
    do {
        ifs += page_is(page.k, "'if'");
        ifs -= page_is(page.k, "'then'");
        page_go();
    } while (ifs != 0);
}

static void page_if(unsigned v)
{
    page_condition();
    page_line(v + 1);
    page_statement(v + 1);
    if (page_is(page.k, "'else'")) {
        page_line(v);
        page_go();
        page_line(v + 1);
        page_statement(v + 1);
    }
}

/* An assignment, a procedure statement or a dummy; an 'else' in it is that of an 'if' in it. */
static void page_simple(void)
{
    unsigned ifs = 0;
    while (!page_is(page.k, ";") && !page_is(page.k, "'end'") && (ifs != 0 || !page_is(page.k, "'else'"))) {
        ifs += page_is(page.k, "'if'");
        ifs -= page_is(page.k, "'else'");
        page_go();
    }
}

static void page_procedure(unsigned v)
{
    static const char *const parts[] = {"'value'", "'integer'", "'real'", "'Boolean'", NULL};
    page_through(";");
    while (page_one_of(page.k, parts)) {
        page_line(v + 1);
        page_through(";");
    }
    page_line(v + 1);
    page_statement(v + 1);
    page_go();
}

static void page_block(unsigned v)
{
    static const char *const types[] = {"'integer'", "'real'", "'Boolean'", NULL};
    page_go();
    for (;;) {
        page_line(v + 1);
        if (page_is(page.k + (size_t)page_one_of(page.k, types), "'procedure'"))
            page_procedure(v + 1);
        else if (page_one_of(page.k, types))
            page_through(";");
        else {
            page_statement(v + 1);
            if (!page_is(page.k, ";"))
                break;
            page_go();
        }
    }
    page_line(v);
    page_go();
}

static void page_statement(unsigned v)
{
    if (page_is(page.k, "'begin'"))
        page_block(v);
    else if (page_is(page.k, "'if'"))
        page_if(v);
    else if (page_is(page.k, "'for'")) {
        page_through("'do'");
        page_line(v + 1);
        page_statement(v + 1);
    } else
        page_simple();
}

/* The page of an accepted source, of which these are the symbols. */
static void own_write(const uint8_t *source, size_t length, const struct own_scan *scan)
{
    page.source = source;
    page.length = length;
    page.scan = scan;
    page.k = page.size = 0;
    page.fresh = 0;
    page_statement(0);
    page_put('\n');
}

#endif
