/* Code for the machine: by hand, laid down at random as docs/MACHINE.md lays constructs down, random instructions and random words. */
#ifndef CODES_H
#define CODES_H

#include "random.h"
#include "words.h"

/* ---- values */

static uint32_t random_whole(void)
{
    static const uint32_t edges[] = {0, 1, 2, 3, 7, 0x7fffffffu, 0x80000000u, 0xffffffffu, 0xfffffffeu, 0x80000001u, 46340, 46341, 65536};
    return once_in(4) ? random_word() : edges[below(13)];
}

/* Any finite real: an edge, a whole number and some halves, or any bits. */
static double random_real(void)
{
    static const double edges[] = {0.0, -0.0, 0.5, -0.5, 1.0, -1.0, 1.5, 2.5, -2.5, 0.1, 0.49999999999999994, 2147483647.0, 2147483647.5, -2147483648.0,
                                   -2147483648.5, -2147483649.0, 4503599627370495.5, 9007199254740993.0, 1e308, -1e308, 1.7976931348623157e308, 5e-324,
                                   2.2250738585072014e-308, 1e-160, 1e160, 3000000000.0};
    double x;
    if (once_in(3))
        return edges[below(26)];
    if (once_in(2))
        return ((double)(int32_t)random_whole() + (double)below(9) / 8) / (once_in(2) ? 1 : 1 + below(1000));
    uint64_t bits = (uint64_t)random_word() << 32 | random_word();
    if ((bits >> 52 & 2047) == 2047)
        bits ^= 1ull << 60;
    if (once_in(3)) /* near others in size */
        bits = (bits & ~(0x7ffull << 52)) | (uint64_t)(1000 + below(60)) << 52;
    memcpy(&x, &bits, sizeof x);
    return x;
}

/* A value of a type in a new cell. */
static void put_value(struct code *c, uint32_t type)
{
    if (type == WHOLES)
        put(c, CONST, random_whole());
    else if (type == REALS)
        put_real(c, random_real());
    else
        put(c, LOGICAL, below(2));
}

/* ---- by hand */

/* The type of an operator's value, for operands of these types; TRUTHS + 1 where it takes none such. */
static uint32_t operator_type(uint32_t k, uint32_t x, uint32_t y)
{
    int numbers = x != TRUTHS && y != TRUTHS, wholes = x == WHOLES && y == WHOLES;
    if (k == MINUS)
        return x == TRUTHS ? TRUTHS + 1 : x;
    if (k == NOT || (AND <= k && k <= EQUIV))
        return x == TRUTHS && (k == NOT || y == TRUTHS) ? TRUTHS : TRUTHS + 1;
    if (k == IABS || k == OVER)
        return x == WHOLES && (k == IABS || y == WHOLES) ? WHOLES : TRUTHS + 1;
    if (k == DIVIDE)
        return numbers ? REALS : TRUTHS + 1;
    return !numbers ? TRUTHS + 1 : k >= BELOW ? TRUTHS : wholes ? WHOLES : REALS;
}

/* Writes the newest value on the channel below it: 'true' as 1 and 'false' as 0. */
static void put_written(struct code *c, uint32_t type)
{
    if (type == TRUTHS) {
        put(c, UNLESS, here(c) + 3);
        put(c, CONST, 1);
        put(c, JUMP, here(c) + 2);
        put(c, CONST, 0);
    }
    put(c, type == REALS ? OUTREAL : OUT, 0);
}

/* The operators on random values, each result written, from a random one on: a fault ends the run. */
static void by_hand_operators(struct code *c)
{
    uint32_t first = below(DIVIDE), all = below(9);
    for (uint32_t i = 0; i < DIVIDE; i++) {
        uint32_t k = 1 + (first + i) % DIVIDE, x = once_in(4) ? below(3) : all % 3, y = once_in(4) ? below(3) : all / 3;
        if ((k < MINUS || k > EQUIV) && k != DIVIDE)
            continue;
        uint32_t type = operator_type(k, x, y);
        if (type > TRUTHS && !once_in(50))
            continue;
        put(c, CONST, 1);
        put_value(c, x);
        if (k >= PLUS)
            put_value(c, y);
        put(c, k, 0);
        put_written(c, type);
    }
    put(c, END, 0);
}

/* Conversions: each value as a real, as a whole number, and through a variable of the other type. */
static void by_hand_conversions(struct code *c)
{
    put(c, ENTER, counts(1, 1, 0));
    for (uint32_t i = 1 + below(8); i != 0; i--) {
        uint32_t type = below(2), to = below(2);
        put_value(c, type);
        put(c, once_in(3) ? ASSIGN : STORE, parts(0, to, 0));
        put(c, CONST, 1);
        put(c, LOAD, parts(0, to, 0));
        put(c, AS, once_in(20) ? below(4) : 1 - to);
        put_written(c, 1 - to);
    }
    put(c, LEAVE, parts(0, 2, 0));
    put(c, END, 0);
}

/* f := if n <= 1 then 1 else n * f(n - 1), of the input's first number; f whole or real. */
static void by_hand_factorial(struct code *c, uint32_t type)
{
    put(c, ENTER, counts(1, 0, 0));
    put(c, JUMP, 17);
    put(c, LOAD, parts(0, 1, 0)); /* 2: f */
    put(c, CONST, 1);
    put(c, AT_MOST, 0);
    put(c, UNLESS, 8);
    put(c, CONST, 1);
    put(c, JUMP, 15);
    put(c, LOAD, parts(0, 1, 0));
    put(c, RESULT, type);
    put(c, LOAD, parts(0, 1, 0));
    put(c, CONST, 1);
    put(c, LESS, 0);
    put(c, CALL_NEEDED, parts(1, 2, 2));
    put(c, TIMES, 0);
    put(c, STORE, parts(0, 0, 0)); /* 15 */
    put(c, RETURN, 0);
    put(c, CONST, 1); /* 17 */
    put(c, IN, parts(0, 0, 0));
    put(c, CONST, 1);
    put(c, RESULT, type);
    put(c, LOAD, parts(0, 0, 0));
    put(c, CALL_NEEDED, parts(0, 2, 2));
    put_written(c, type);
    put(c, LEAVE, parts(0, 1, 0));
    put(c, END, 0);
}

/* A procedure that calls itself until the activations or the cells are used up; each has n cells. */
static void by_hand_endless(struct code *c, uint32_t n)
{
    put(c, JUMP, 2);
    put(c, RETURN, 0);
    for (uint32_t i = 0; i < n; i++)
        put(c, CONST, i);
    put(c, CALL, parts(1, n, 2));
    put(c, RETURN, 0);
}

/* for i := 0 step s until b, loops in loops, n of them: in the innermost a block, and the number written. Variables, steps and bounds may be reals. */
static void by_hand_loops(struct code *c, uint32_t n)
{
    uint32_t test[64], after[64], reals = once_in(2) ? below(n + 1) : 0, cells = below(6), others = below(3);
    put(c, ENTER, counts(n - reals, reals, 0));
    for (uint32_t i = 0; i < n; i++) {
        put(c, CONST, 0);
        put(c, STORE, parts(0, i, 0));
        uint32_t go = here(c), step = go + 1;
        put(c, GO, 0);
        once_in(3) ? put_real(c, once_in(4) ? random_real() : (double)(below(9) - 3) / 4) : put(c, CONST, once_in(9) ? random_whole() : below(5) - 2);
        put(c, NEXT, parts(i, 0, 0));
        c->word[2 * go + 1] = parts(i, here(c), step);
        put(c, HOLD, 0);
        uint32_t bound = here(c);
        once_in(3) ? put_real(c, once_in(4) ? random_real() : (double)below(12) / 4) : put(c, CONST, once_in(9) ? random_whole() : below(5));
        test[i] = here(c);
        put(c, TEST, parts(0, i, 0));
        put(c, GO, parts(i, here(c) + 1, here(c) + 5));
        put(c, GO, parts(i, here(c) + 1, step));
        put(c, SUM, parts(0, i, 0));
        put(c, STORE, parts(0, i, 0));
        put(c, JUMP, bound);
    }
    put(c, ENTER, counts(cells, others, 0));
    put(c, CONST, 1);
    put(c, LOAD, parts(0, n - 1, 0));
    put_written(c, reals == 0 ? WHOLES : REALS);
    put(c, LEAVE, parts(0, cells + others, 0));
    for (uint32_t i = n; i != 0; i--) {
        put(c, NEXT, parts(i - 1, 0, 0));
        after[i - 1] = here(c);
    }
    for (uint32_t i = 0; i < n; i++)
        put_address(c, test[i], after[i]);
    put(c, LEAVE, parts(0, n, 0));
    put(c, END, 0);
}

/* Takes numbers and writes their sum, until the input ends or the output is full. */
static void by_hand_sums(struct code *c, uint32_t type)
{
    put(c, ENTER, type == WHOLES ? counts(2, 0, 0) : counts(0, 2, 0));
    put(c, CONST, 0);
    put(c, STORE, parts(0, 0, 0));
    put(c, CONST, 1); /* 3 */
    put(c, IN, parts(0, 1, 0));
    put(c, CONST, 1);
    put(c, LOAD, parts(0, 0, 0));
    put(c, LOAD, parts(0, 1, 0));
    put(c, PLUS, 0);
    put(c, ASSIGN, parts(0, 0, 0));
    put_written(c, type);
    put(c, JUMP, 3);
}

/* One call of a short procedure, whose cells may be gone at its return; then what stayed is written. */
static void by_hand_call(struct code *c)
{
    static const uint32_t within[] = {CONST, RESULT, DROP, LEAVE, STORE, ASSIGN, LOAD, HOLD, NEXT, LOGICAL, HIGH, AS};
    uint32_t n = below(4);
    put(c, JUMP, 8);
    for (uint32_t i = below(7); i != 0; i--)
        put(c, within[below(12)], parts(0, below(4), below(3)));
    put(c, RETURN, below(4));
    while (here(c) < 8)
        put(c, END, 0);
    put(c, CONST, 1); /* 8 */
    for (uint32_t i = 0; i < n; i++)
        put(c, once_in(2) ? RESULT : CONST, i);
    put(c, once_in(2) ? CALL_NEEDED : CALL, parts(0, n, 1));
    put(c, once_in(3) ? OUTREAL : OUT, 0);
    put(c, END, 0);
}

/* The formal's cell is sought, or now and then what was found before serves. */
static void put_sought(struct code *c, uint32_t operation)
{
    if (!once_in(12))
        put(c, SEEK, parts(0, 0, 0));
    put(c, operation, parts(0, FOUND, operation == TEST ? here(c) + 1 : 0));
}

/* What is done with a formal called by name: read, stored to, or controlled by a step element. */
static void put_action(struct code *c)
{
    switch (below(5)) {
    case 0: /* a := a + x */
        put(c, WORK, parts(0, 0, 0));
        put_real(c, once_in(2) ? 0.75 : random_real());
        put(c, PLUS, 0);
        put_sought(c, STORE);
        break;
    case 1: /* a := b := x */
        put_value(c, below(2));
        put_sought(c, ASSIGN);
        put_sought(c, STORE);
        break;
    case 2:
        if (once_in(2)) {
            put(c, CONST, 1);
            put_sought(c, IN);
        }
        put_sought(c, LOAD);
        put(c, DROP, 0);
        break;
    case 3: /* tested, with a step held */
        put_value(c, once_in(12) ? TRUTHS : below(2));
        put(c, HOLD, 0);
        put_value(c, once_in(12) ? TRUTHS : below(2));
        put_sought(c, TEST);
        break;
    default: /* a step added */
        put_value(c, once_in(12) ? TRUTHS : below(2));
        put(c, HOLD, 0);
        put_value(c, once_in(12) ? TRUTHS : below(2));
        put_sought(c, SUM);
        put_sought(c, STORE);
    }
}

/* p(a) calls p(a) n times, a by name, and then does something with a; the program calls it with a variable, which is written then, or with a number.
 * The variable and both formals on the way are whole numbers or reals: each read and store converts at each of them. */
static void by_hand_names(struct code *c, uint32_t n, int is_variable, uint32_t type)
{
    uint32_t inner = below(2), outer = below(2);
    put(c, ENTER, type == WHOLES ? counts(2, 0, 0) : counts(1, 1, 0));
    put(c, JUMP, 0);
    put(c, LOAD, parts(1, 0, 0)); /* 2: p */
    put(c, CONST, 0);
    put(c, ABOVE, 0);
    put(c, UNLESS, 18);
    put(c, LOAD, parts(1, 0, 0));
    put(c, CONST, 1);
    put(c, LESS, 0);
    put(c, STORE, parts(1, 0, 0));
    put(c, NAME, 16);
    put(c, PASS, parts(1, 0, 0));
    put(c, RETURN, inner);
    put(c, WORK, parts(1, 0, 0));
    put(c, AS, inner);
    put(c, RETURN, 0);
    put(c, CALL, parts(1, 1, 2)); /* 16 */
    put(c, RETURN, 0);
    put_action(c); /* 18 */
    put(c, RETURN, 0);
    put_address(c, 1, here(c));
    put(c, CONST, n);
    put(c, STORE, parts(0, 0, 0));
    put_value(c, below(2));
    put(c, STORE, parts(0, 1, 0));
    uint32_t name = here(c);
    put(c, NAME, 0);
    once_in(12) ? put(c, CONST, 0) : put(c, is_variable ? LEND : REFUSE, parts(1, 1, 0)); /* a CONST finds nothing */
    put(c, RETURN, outer);
    put(c, is_variable ? LOAD : CONST, parts(1, 1, 0));
    put(c, AS, outer);
    put(c, RETURN, 0);
    put_address(c, name, here(c));
    put(c, CALL, parts(0, 1, 2));
    put(c, CONST, 1);
    put(c, LOAD, parts(0, 1, 0));
    put_written(c, type);
    put(c, LEAVE, parts(0, 2, 0));
    put(c, END, 0);
}

/* The code of an actual called by name, a variable of the program, for a formal of a type; now and then its store part finds nothing. */
static void put_actual(struct code *c, uint32_t type, uint32_t finds)
{
    uint32_t name = here(c);
    put(c, NAME, 0);
    finds ? put(c, LEND, parts(1, 0, 0)) : put(c, CONST, 0);
    put(c, RETURN, type);
    put(c, LOAD, parts(1, 0, 0));
    put(c, AS, type);
    put(c, RETURN, 0);
    put_address(c, name, here(c));
}

/* p(a, b), both by name: a store to b, then one to a, whose working out may find nothing: the cell found stays, and the formal on b's way is gone. */
static void by_hand_stale(struct code *c, uint32_t type)
{
    put(c, ENTER, type == WHOLES ? counts(1, 0, 0) : counts(0, 1, 0));
    put(c, JUMP, 0);
    put_value(c, below(2)); /* 2: p */
    put(c, SEEK, parts(0, 1, 0));
    put(c, STORE, parts(0, FOUND, 0));
    put_value(c, below(2));
    put(c, SEEK, parts(0, 0, 0));
    put(c, STORE, parts(0, FOUND, 0));
    put(c, RETURN, 0);
    put_address(c, 1, here(c));
    put_actual(c, below(2), once_in(3));
    put_actual(c, below(2), !once_in(6));
    put(c, CALL, parts(0, 2, 2));
    put(c, CONST, 1);
    put(c, LOAD, parts(0, 0, 0));
    put_written(c, type);
    put(c, LEAVE, parts(0, 1, 0));
    put(c, END, 0);
}

/* More words than a run reads: the last instructions that it has, and those behind them. */
static void by_hand_far(struct code *c)
{
    put(c, JUMP, 8191 - below(3));
    while (c->length < WORDS - 1)
        put(c, once_in(100) ? END : CONST, 1);
}

/* ---- laid down */

struct variable { uint32_t level, offset, named, type; };
struct procedure { uint32_t level, entry, actuals, typed, named, type[4]; }; /* named: a bit a formal; type: of the result, then of the formals */

/* What is around the construct that is laid down. */
struct laying {
    struct code *code;
    struct variable variable[64];
    struct procedure procedure[64];
    uint32_t variables, procedures;
    uint32_t level, height, nesting; /* of the activation: how deep, its cells in use, its loops around */
    uint32_t budget;
};

static void lay_expression(struct laying *l, unsigned depth, uint32_t type);

/* Now and then another type than is asked. */
static uint32_t random_type(uint32_t type) { return once_in(300) ? below(3) : type; }

static uint32_t number_type(void) { return once_in(2) ? REALS : WHOLES; }

static uint32_t operand_of(const struct laying *l, struct variable v) { return parts(l->level - v.level, v.offset, 0); }

/* A variable whose values suit those of a type; or any, where a few tries find none. */
static struct variable some_variable(const struct laying *l, uint32_t type)
{
    struct variable v = l->variable[below(l->variables)];
    for (unsigned i = 0; i < 12 && (v.type == TRUTHS) != (type == TRUTHS); i++)
        v = l->variable[below(l->variables)];
    return v;
}

/* An operation on a variable's cell, which for a name formal is sought first. */
static void lay_on(struct laying *l, struct variable v, uint32_t operation)
{
    if (v.named)
        put(l->code, SEEK, operand_of(l, v));
    put(l->code, operation, v.named ? parts(0, FOUND, 0) : operand_of(l, v));
}

static void lay_read(struct laying *l, struct variable v) { put(l->code, v.named ? WORK : LOAD, operand_of(l, v)); }

static void lay_variable(struct laying *l, uint32_t operation, uint32_t type)
{
    struct variable v = some_variable(l, type);
    if (v.named && operation == IN)
        put(l->code, CHANNEL, 0);
    lay_on(l, v, operation);
}

/* A value becomes one of a type, if it is a number. */
static void lay_as(struct laying *l, uint32_t type)
{
    if (type != TRUTHS || once_in(20))
        put(l->code, AS, type);
}

/* An actual called by name: its store part, then its read part, one level further in. */
static void lay_named(struct laying *l, unsigned depth, uint32_t type)
{
    uint32_t name = here(l->code);
    put(l->code, NAME, 0);
    l->level++;
    if (l->variables != 0 && !once_in(3)) {
        struct variable v = some_variable(l, type);
        put(l->code, v.named ? PASS : LEND, operand_of(l, v));
        put(l->code, RETURN, type);
        lay_read(l, v);
    } else {
        put(l->code, REFUSE, 0);
        put(l->code, RETURN, type);
        lay_expression(l, depth, type == TRUTHS ? TRUTHS : number_type());
    }
    lay_as(l, type);
    put(l->code, RETURN, 0);
    l->level--;
    put_address(l->code, name, here(l->code));
}

static void lay_actual(struct laying *l, unsigned depth, const struct procedure *p, uint32_t i)
{
    uint32_t type = p->type[1 + i];
    if ((p->named >> i & 1) != 0)
        lay_named(l, depth, type);
    else {
        lay_expression(l, depth, type == TRUTHS ? TRUTHS : number_type());
        lay_as(l, type);
    }
}

static void lay_call(struct laying *l, unsigned depth, const struct procedure *p, int needed)
{
    if (p->typed)
        put(l->code, RESULT, p->type[0]);
    for (uint32_t i = 0; i < p->actuals; i++)
        lay_actual(l, depth, p, i);
    put(l->code, needed ? CALL_NEEDED : CALL, parts(l->level - p->level, p->actuals + p->typed, p->entry));
}

/* A function of a type, if a few tries find one; else a value. */
static void lay_function(struct laying *l, unsigned depth, uint32_t type)
{
    for (unsigned i = 0; i < 4 && l->procedures != 0; i++) {
        struct procedure p = l->procedure[below(l->procedures)];
        if (p.typed && p.type[0] == type) {
            lay_call(l, depth, &p, 1);
            return;
        }
    }
    put_value(l->code, type);
}

/* A number, a logical value or a variable; a variable of the other type is converted. */
static void lay_primary(struct laying *l, uint32_t type)
{
    if (l->variables == 0 || once_in(3)) {
        if (type == WHOLES)
            put(l->code, CONST, once_in(10) ? random_whole() : below(12));
        else if (type == REALS)
            put_real(l->code, once_in(10) ? random_real() : (double)below(40) / 8);
        else
            put(l->code, LOGICAL, below(2));
        return;
    }
    struct variable v = some_variable(l, type);
    lay_read(l, v);
    if (v.type != type)
        lay_as(l, type);
}

/* 'if' C 'then' A 'else' B; a whole number beside a real becomes one. */
static void lay_choice(struct laying *l, unsigned depth, uint32_t type)
{
    int wide = type == REALS && once_in(2);
    lay_expression(l, depth, TRUTHS);
    uint32_t unless = here(l->code);
    put(l->code, UNLESS, 0);
    lay_expression(l, depth, wide ? WHOLES : type);
    if (wide)
        put(l->code, AS, REALS);
    uint32_t jump = here(l->code);
    put(l->code, JUMP, 0);
    put_address(l->code, unless, here(l->code));
    lay_expression(l, depth, type);
    put_address(l->code, jump, here(l->code));
}

/* Two operands and an operator that gives the type. */
static void lay_operator(struct laying *l, unsigned depth, uint32_t type)
{
    uint32_t x = type, y = type, k = once_in(9) ? OVER : PLUS + below(3);
    if (type == REALS) {
        x = number_type();
        y = number_type();
        k = x == WHOLES && y == WHOLES ? DIVIDE : once_in(4) ? DIVIDE : PLUS + below(3);
    } else if (type == TRUTHS && !once_in(3)) {
        x = number_type();
        y = number_type();
        k = BELOW + below(6);
    } else if (type == TRUTHS)
        k = AND + below(4);
    lay_expression(l, depth, x);
    lay_expression(l, depth, y);
    put(l->code, k, 0);
}

static void lay_expression(struct laying *l, unsigned depth, uint32_t asked)
{
    uint32_t type = random_type(asked), sort = depth == 0 || l->budget == 0 ? below(3) : below(10);
    if (l->budget != 0)
        l->budget--;
    if (sort <= 2)
        lay_primary(l, type);
    else if (sort == 3)
        lay_function(l, depth - 1, type);
    else if (sort == 4) {
        lay_expression(l, depth - 1, type);
        put(l->code, type == TRUTHS ? NOT : type == WHOLES && once_in(2) ? IABS : MINUS, 0);
    } else if (sort == 5)
        lay_choice(l, depth - 1, type);
    else if (sort == 6 && type == WHOLES && once_in(2)) {
        lay_expression(l, depth - 1, REALS);
        put(l->code, AS, WHOLES);
    } else
        lay_operator(l, depth - 1, type);
}

static void lay_statement(struct laying *l, unsigned depth);

/* The elements, then the body: where an element ends the next one begins, and the last one goes behind the body. */
static void lay_loop(struct laying *l, unsigned depth)
{
    struct variable v = some_variable(l, WHOLES);
    uint32_t count = 1 + below(3), go[3], leave[3], begins[4];
    int stays[3];
    for (uint32_t i = 0; i < count; i++) {
        uint32_t sort = below(3);
        begins[i] = here(l->code);
        leave[i] = 0;
        stays[i] = sort != 0;
        lay_expression(l, 1, number_type());
        lay_on(l, v, STORE);
        uint32_t step = 0, bound = 0;
        if (sort == 1) {
            lay_expression(l, 1, TRUTHS);
            leave[i] = here(l->code);
            put(l->code, UNLESS, 0);
        } else if (sort == 2) {
            /* To the step and back; later to the step again. */
            put(l->code, GO, 0);
            step = here(l->code);
            once_in(3) ? put_real(l->code, (double)(1 + below(12)) / 4) : put(l->code, CONST, once_in(5) ? 0xffffffffu : 1 + below(3));
            if (once_in(3)) {
                lay_expression(l, 1, number_type());
                put(l->code, once_in(2) ? PLUS : TIMES, 0);
            }
            put(l->code, NEXT, parts(l->nesting, 0, 0));
            l->code->word[2 * step - 1] = parts(l->nesting, here(l->code), step);
            put(l->code, HOLD, 0);
            bound = here(l->code);
            lay_expression(l, 1, number_type());
            lay_on(l, v, TEST);
            leave[i] = here(l->code) - 1;
        }
        go[i] = here(l->code);
        put(l->code, GO, parts(l->nesting, sort == 1 ? begins[i] : go[i] + 1, 0));
        if (sort == 2) {
            put(l->code, GO, parts(l->nesting, here(l->code) + 1, step));
            lay_on(l, v, SUM);
            lay_on(l, v, STORE);
            put(l->code, JUMP, bound);
        }
    }
    uint32_t body = here(l->code);
    l->nesting++;
    lay_statement(l, depth - 1);
    l->nesting--;
    put(l->code, NEXT, parts(l->nesting, 0, 0));
    begins[count] = here(l->code);
    for (uint32_t i = 0; i < count; i++) {
        uint32_t next = i + 1 < count ? begins[i + 1] : begins[count];
        put_address(l->code, go[i], body);
        if (leave[i] != 0)
            put_address(l->code, leave[i], next);
        if (!stays[i])
            put_position(l->code, go[i], next);
    }
}

static void lay_procedure(struct laying *l, unsigned depth)
{
    struct procedure p = {l->level, here(l->code), below(3), below(2), below(4), {below(3), below(3), below(3), below(3)}};
    uint32_t outer = l->variables, height = l->height, nesting = l->nesting;
    l->procedure[l->procedures++] = p;
    l->level++;
    for (uint32_t k = 0; k < p.actuals + p.typed && l->variables < 64; k++)
        l->variable[l->variables++] = (struct variable){l->level, k, k >= p.typed && (p.named >> (k - p.typed) & 1) != 0, p.type[1 + k - p.typed]};
    l->height = p.actuals + p.typed;
    l->nesting = 0;
    lay_statement(l, depth - 1);
    put(l->code, RETURN, below(3));
    l->level--;
    l->variables = outer;
    l->height = height;
    l->nesting = nesting;
}

/* Its cells lie by their types; its procedures stand before it, and are jumped over. */
static void lay_block(struct laying *l, unsigned depth)
{
    uint32_t count[3] = {below(3), below(3), below(2)}, cells = count[0] + count[1] + count[2], variables = l->variables, procedures = l->procedures;
    uint32_t jump = here(l->code), below_it = l->height;
    for (uint32_t t = 0; t < 3; t++)
        for (uint32_t i = 0; i < count[t] && l->variables < 64; i++)
            l->variable[l->variables++] = (struct variable){l->level, below_it++, 0, t};
    l->height += cells;
    put(l->code, JUMP, 0);
    for (uint32_t i = below(3); i != 0 && depth != 0 && l->procedures < 64; i--)
        lay_procedure(l, depth);
    put_address(l->code, jump, here(l->code));
    put(l->code, ENTER, counts(count[0], count[1], count[2]));
    for (uint32_t i = cells; i != 0 && !once_in(20); i--) {
        uint32_t at = cells - i;
        at < count[0] + count[1] ? put(l->code, CONST, below(10)) : put(l->code, LOGICAL, below(2));
        put(l->code, STORE, parts(0, l->height - i, 0));
    }
    for (uint32_t i = 1 + below(4); i != 0; i--)
        lay_statement(l, depth == 0 ? 0 : depth - 1);
    put(l->code, LEAVE, parts(0, cells, 0));
    l->height -= cells;
    l->variables = variables;
    l->procedures = procedures;
}

static void lay_assignment(struct laying *l)
{
    uint32_t type = once_in(4) ? TRUTHS : number_type();
    lay_expression(l, 3, type);
    while (once_in(4))
        lay_variable(l, ASSIGN, type);
    lay_variable(l, STORE, type);
}

static void lay_output(struct laying *l)
{
    uint32_t type = number_type();
    put(l->code, CONST, once_in(200) ? 2 : 1);
    lay_expression(l, 2, type);
    put(l->code, type == REALS ? OUTREAL : OUT, 0);
}

static void lay_statement(struct laying *l, unsigned depth)
{
    uint32_t sort = depth == 0 || l->budget == 0 ? below(4) : below(10);
    if (l->budget != 0)
        l->budget--;
    if (sort == 0 || l->variables == 0)
        lay_output(l);
    else if (sort <= 2)
        lay_assignment(l);
    else if (sort == 3) {
        put(l->code, CONST, once_in(200) ? 0 : 1);
        lay_variable(l, IN, WHOLES);
    } else if (sort == 4 && l->procedures != 0)
        lay_call(l, 2, &l->procedure[below(l->procedures)], 0);
    else if (sort <= 6) {
        lay_expression(l, 2, TRUTHS);
        uint32_t unless = here(l->code);
        put(l->code, UNLESS, 0);
        lay_statement(l, depth - 1);
        put_address(l->code, unless, here(l->code));
    } else if (sort <= 7)
        lay_loop(l, depth);
    else
        lay_block(l, depth - 1);
}

static void laid_code(struct code *c)
{
    static struct laying l;
    l.code = c;
    l.variables = l.procedures = l.level = l.height = l.nesting = 0;
    l.budget = 20 + below(400);
    lay_block(&l, 1 + below(5));
    put(c, END, 0);
}

/* ---- at random */

/* Instructions with operands that are often within range. */
static void random_instructions(struct code *c)
{
    uint32_t count = 1 + below(once_in(10) ? 200 : 24);
    put(c, ENTER, counts(below(4), below(3), below(2)));
    for (uint32_t i = 0; i < count; i++) {
        if (once_in(3)) {
            put_value(c, below(3));
            continue;
        }
        uint32_t k = 1 + below(AS), high = once_in(6) ? below(64) : below(3), low = once_in(4) ? below(4) : below(count + 2);
        uint32_t mid = once_in(8) ? below(8192) : once_in(8) ? FOUND : below(6);
        put(c, k, k == ENTER ? counts(below(3), below(3), below(3)) : k == HIGH ? random_word() : parts(high, mid, low));
    }
}

static void random_words(struct code *c)
{
    for (uint32_t i = below(60); i != 0; i--)
        c->word[c->length++] = once_in(2) ? random_word() : below(4096);
}

/* A few words changed. */
static void change_code(struct code *c, unsigned times)
{
    for (unsigned i = 0; i < times && c->length != 0; i++) {
        uint32_t at = below((uint32_t)c->length);
        if (once_in(3))
            c->word[at] ^= 1u << below(32);
        else if (once_in(2))
            c->word[at & ~1u] = (c->word[at & ~1u] & ~63u) | below(AS + 2);
        else
            c->word[at | (c->length > (at | 1u))] = parts(below(3), below(4), below(here(c) + 1));
    }
    if (once_in(10) && c->length != 0)
        c->length -= 1;
}

static void code_by_hand(struct code *c)
{
    switch (below(once_in(10) ? 11 : 10)) {
    case 0: by_hand_operators(c); break;
    case 1: by_hand_factorial(c, below(2)); break;
    case 2: by_hand_endless(c, below(once_in(3) ? 100 : 4)); break;
    case 3: by_hand_loops(c, 1 + below(once_in(10) ? 64 : 3)); break;
    case 4: by_hand_sums(c, below(2)); break;
    case 5: by_hand_call(c); break;
    case 6: case 8: by_hand_names(c, below(once_in(3) ? 130 : 4), !once_in(4), below(2)); break;
    case 7: by_hand_conversions(c); break;
    case 9: by_hand_stale(c, below(2)); break;
    default: by_hand_far(c); break;
    }
}

static void random_code(struct code *c)
{
    c->length = 0;
    switch (below(10)) {
    case 0: case 1: code_by_hand(c); break;
    case 2: code_by_hand(c); change_code(c, 1 + below(3)); break;
    case 3: case 4: laid_code(c); break;
    case 5: case 6: laid_code(c); change_code(c, 1 + below(3)); break;
    case 7: case 8: random_instructions(c); break;
    default: random_words(c); break;
    }
}

#endif
