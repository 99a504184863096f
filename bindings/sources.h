/* Random sources: bytes, words and signs, and changed files. */
#ifndef SOURCES_H
#define SOURCES_H

#include <stdio.h>
#include <stdlib.h>
#include <string.h>

#include "random.h"

enum { TEXT = 40000, FILES = 4000 };

struct text {
    size_t length;
    uint8_t byte[TEXT];
};

/* The files that are changed. */
static struct { size_t length; uint8_t *byte; } file[FILES];
static size_t files;

static void load_file(const char *name)
{
    FILE *f = fopen(name, "rb");
    if (f == NULL || files == FILES) {
        fprintf(stderr, "%s cannot be read\n", name);
        exit(2);
    }
    uint8_t *byte = malloc(TEXT);
    file[files].length = fread(byte, 1, TEXT, f);
    file[files].byte = byte;
    files++;
    fclose(f);
}

static void put_byte(struct text *t, uint8_t b)
{
    if (t->length < TEXT)
        t->byte[t->length++] = b;
}

static void put_text(struct text *t, const char *s)
{
    while (*s != 0)
        put_byte(t, (uint8_t)*s++);
}

static void put_blanks(struct text *t)
{
    while (once_in(3))
        put_byte(t, (uint8_t)" \t\r\n"[below(4)]);
}

static void put_name(struct text *t, unsigned length)
{
    static const char letters[] = "abcxyzABCXYZ0189";
    put_byte(t, (uint8_t)letters[below(12)]);
    for (unsigned i = 1; i < length; i++) {
        if (once_in(12))
            put_blanks(t);
        put_byte(t, (uint8_t)letters[below(16)]);
    }
}

static void put_digits(struct text *t, unsigned length)
{
    for (unsigned i = 0; i < length; i++) {
        if (once_in(12))
            put_blanks(t);
        put_byte(t, (uint8_t)('0' + below(10)));
    }
}

/* With a point now and then: in front, inside, or with nothing behind it. */
static void put_number(struct text *t, unsigned length)
{
    static const char *const edges[] = {"2147483647", "2147483648", "2147483646", "21474836470", "0000000000002147483647", "4294967296", "18446744073709551616",
                                        "2147483648.0", "0.00000000000001", "0.000000000000001", "999999999999999.9", "99999999999999.9", "1.", ".", "1..5",
                                        "1.5.2", "007.50", "1 . 2 5", ". 5"};
    if (once_in(8)) {
        put_text(t, edges[below(19)]);
        return;
    }
    unsigned behind = once_in(3) ? 1 + below(length) : 0;
    if (behind == 0 || !once_in(4))
        put_digits(t, length);
    if (behind != 0) {
        put_blanks(t);
        put_byte(t, '.');
        put_blanks(t);
        put_digits(t, behind);
    }
}

static const char *const words[] = {
    "'begin'", "'end'", "'if'", "'then'", "'else'", "'for'", "'do'", "'step'", "'until'", "'while'", "'comment'", "'integer'", "'real'", "'Boolean'",
    "'procedure'", "'value'", "'true'", "'false'", "'and'", "'or'", "'not'", "'impl'", "'equiv'",
};
static const char *const signs[] = {"+", "-", "*", "/", "%", "<", "<=", "=", ">=", ">", "#", ",", ":", ":=", ";", "(", ")", "< =", ": =", "> \n="};
static const char *const wrong[] = {"'", "''", "'Begins'", "'begin '", "' END'", "'boolea'", "'go to'", "'reals'", "'Rea1'", "'ends'", "'En'", "!",
                                    "\"", "\\", "_", "~", "\f", "\v", "\x80", "\xff", "'end", "."};

/* A word, now and then in capitals here and there. */
static void put_word(struct text *t, const char *s)
{
    unsigned capitals = once_in(4);
    for (; *s != 0; s++)
        put_byte(t, (uint8_t)(capitals && 'a' <= *s && *s <= 'z' && once_in(2) ? *s - 'a' + 'A' : *s));
}

/* One symbol, or now and then something that is none. */
static void put_symbol(struct text *t, unsigned faults)
{
    switch (below(12)) {
    case 0: case 1: case 2:
        put_word(t, words[below(23)]);
        break;
    case 3: case 4: case 5:
        put_text(t, signs[below(20)]);
        break;
    case 6: case 7:
        put_name(t, once_in(faults) ? 30 + below(6) : 1 + below(8));
        break;
    case 8:
        put_number(t, once_in(faults) ? 8 + below(6) : 1 + below(6));
        break;
    case 9: /* a note, or a misplaced one */
        put_text(t, once_in(3) ? "'comment'" : once_in(2) ? "; 'comment'" : "'begin' 'comment'");
        for (unsigned i = below(8); i != 0; i--)
            put_byte(t, (uint8_t)below(256));
        put_text(t, once_in(faults) ? "" : ";");
        break;
    case 10: /* a remark */
        put_text(t, "'end'");
        put_blanks(t);
        put_name(t, 1 + below(40));
        break;
    default:
        if (once_in(faults))
            put_text(t, wrong[below(22)]);
        else
            put_text(t, ";");
    }
}

static void random_bytes(struct text *t)
{
    unsigned length = below(once_in(10) ? 600 : 40);
    for (unsigned i = 0; i < length; i++)
        put_byte(t, once_in(4) ? (uint8_t)below(256) : (uint8_t)" \n'';:=<>aZ09(,."[below(16)]);
}

static void random_symbols(struct text *t)
{
    unsigned count = below(once_in(20) ? 400 : 30), faults = 2 + below(200);
    for (unsigned i = 0; i < count; i++) {
        put_blanks(t);
        put_symbol(t, faults);
    }
}

/* About 2,048 symbols, or about 16,384 bytes. */
static void random_long(struct text *t)
{
    if (once_in(2)) {
        static const char *const many[] = {";", "'if'", "a:=", "a+", "> =", "<=", "<", ">", ": \t=", "1<", "a1 2", "'end'x", "=", ":"};
        const char *sort = many[below(14)];
        unsigned count = (strlen(sort) > 1 && below(2) ? 1020 : 2040) + below(16);
        for (unsigned i = 0; i < count; i++)
            put_text(t, sort);
        put_text(t, once_in(2) ? "" : once_in(2) ? "'comment';" : once_in(2) ? "!" : "'end' and so on");
        return;
    }
    unsigned length = 16370 + below(30);
    put_text(t, "'begin'");
    if (once_in(2))
        put_text(t, "'comment'");
    while (t->length < length)
        put_byte(t, (uint8_t)(once_in(100) ? ' ' : '\n'));
    put_text(t, once_in(2) ? ";'end'" : "'end'");
}

/* A piece of a program that the grammar has, so that later answers come too; v: a variable or formal, a whole number's or a real's. */
static void put_statement(struct text *t, unsigned depth, const char *v)
{
    static const char *const values[] = {" := b + 1", " := r / b", " := 2.5 * a - r", " := -r", " := b * .1", " := 'if' a < r 'then' a 'else' r"};
    switch (depth == 0 ? below(5) : below(10)) {
    case 0:
        put_text(t, v);
        put_text(t, values[below(6)]);
        break;
    case 1:
        put_text(t, once_in(2) ? "outinteger(1, " : "outreal(1, ");
        put_text(t, v);
        put_text(t, once_in(4) ? " % 2)" : " / 2)");
        break;
    case 2:
        put_text(t, "ininteger(1, ");
        put_text(t, v);
        put_text(t, ")");
        break;
    case 3:
        put_text(t, "p(");
        put_text(t, v);
        put_text(t, once_in(2) ? ", 1)" : once_in(2) ? ", b)" : once_in(2) ? ", r)" : ", a * 1.5)");
        break;
    case 4:
        put_text(t, once_in(2) ? "outreal(1, r)" : "outinteger(1, a)");
        break;
    case 5:
        put_text(t, once_in(2) ? "'begin' 'integer' a, c; a := 2;" : "'begin' 'Boolean' d; 'real' r; 'integer' c; 'real' e; r := 0.25;");
        put_statement(t, depth - 1, v);
        put_text(t, "'end'");
        break;
    case 6:
        put_text(t, "'if' b < ");
        put_text(t, v);
        put_text(t, " 'then' 'begin'");
        put_statement(t, depth - 1, v);
        put_text(t, "'end' 'else' ");
        put_statement(t, depth - 1, v);
        break;
    case 7:
        put_text(t, "'for' ");
        put_text(t, v);
        put_text(t, once_in(2) ? " := 1, b 'while' a > 2, 1 'step' 2 'until' 9 'do' " : " := 0.5, r 'while' r > 2.5, 1 'step' .75 'until' 3 'do' ");
        put_statement(t, depth - 1, v);
        break;
    case 8: put_text(t, once_in(2) ? "p(1, a)" : "p(r, 2.25)"); break;
    default:
        put_text(t, once_in(2) ? "a := b := " : "r := ");
        put_text(t, "f(a < b) * 3");
        break;
    }
}

/* Its formals are called by value or by name, and are whole numbers or reals. */
static void random_program(struct text *t)
{
    static const char *const value[] = {"", "'value' x; ", "'value' y; ", "'value' x, y; "}, *const names[] = {"a", "x", "y", "r"};
    static const char *const types[] = {"'integer' x, y; ", "'real' x, y; ", "'integer' x; 'real' y; ", "'real' x; 'integer' y; "};
    put_text(t, "'begin' 'integer' a, b; 'real' r; 'procedure' p(x, y); ");
    put_text(t, value[below(4)]);
    put_text(t, types[below(4)]);
    put_statement(t, 2, names[below(4)]);
    put_text(t, once_in(2) ? "; 'integer' 'procedure' f(l); " : "; 'real' 'procedure' f(l); ");
    put_text(t, once_in(2) ? "'value' l; " : "");
    put_text(t, "'Boolean' l; f := 'if' l 'then' 1 'else' ");
    put_text(t, once_in(2) ? "0; " : "0.5; ");
    put_text(t, once_in(2) ? "a := b := 1; " : "");
    put_text(t, once_in(2) ? "r := 1; " : "");
    for (unsigned i = below(6); i != 0; i--) {
        put_statement(t, 3, once_in(2) ? "a" : "r");
        put_text(t, ";");
    }
    put_statement(t, 3, once_in(2) ? "a" : "r");
    put_text(t, " 'end'");
}

static void drop_bytes(struct text *t, size_t from, size_t count)
{
    if (count > t->length - from)
        count = t->length - from;
    memmove(t->byte + from, t->byte + from + count, t->length - from - count);
    t->length -= count;
}

static void insert_text(struct text *t, size_t at, const struct text *piece)
{
    if (t->length + piece->length > TEXT)
        return;
    memmove(t->byte + at + piece->length, t->byte + at, t->length - at);
    memcpy(t->byte + at, piece->byte, piece->length);
    t->length += piece->length;
}

/* Some of: a byte changed, some left out, some put in, a piece doubled. */
static void change(struct text *t, unsigned times)
{
    static struct text piece;
    for (unsigned i = 0; i < times; i++) {
        size_t at = below((uint32_t)t->length + 1);
        piece.length = 0;
        switch (below(6)) {
        case 0:
            if (at < t->length)
                t->byte[at] = once_in(4) ? (uint8_t)below(256) : (uint8_t)"'; =a0(.\n"[below(9)];
            break;
        case 1: drop_bytes(t, at, 1 + below(3)); break;
        case 2: drop_bytes(t, at, 1 + below(30)); break;
        case 3: put_symbol(&piece, 20); insert_text(t, at, &piece); break;
        case 4: put_blanks(&piece); insert_text(t, at, &piece); break;
        default:
            piece.length = t->length - at < 40 ? t->length - at : 40;
            memcpy(piece.byte, t->byte + at, piece.length);
            insert_text(t, below((uint32_t)t->length + 1), &piece);
        }
    }
}

static void random_file(struct text *t)
{
    size_t k = below((uint32_t)files);
    memcpy(t->byte, file[k].byte, file[k].length);
    t->length = file[k].length;
}

static void random_source(struct text *t)
{
    t->length = 0;
    unsigned sort = below(100);
    if (sort < 20)
        random_bytes(t);
    else if (sort < 50)
        random_symbols(t);
    else if (sort < 53)
        random_long(t);
    else if (sort < 70 || files == 0) {
        random_program(t);
        change(t, below(3));
    } else {
        random_file(t);
        change(t, below(6));
    }
}

/* One that is likely to be accepted: blanks alone are put in. */
static void random_likely(struct text *t)
{
    static struct text piece;
    t->length = 0;
    if (files == 0 || once_in(2))
        random_program(t);
    else
        random_file(t);
    for (unsigned i = below(6); i != 0; i--) {
        piece.length = 0;
        put_blanks(&piece);
        insert_text(t, below((uint32_t)t->length + 1), &piece);
    }
}

#endif
