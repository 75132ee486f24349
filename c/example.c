/* Calls every entry point, meets each of the thirteen refusals, and looks at every byte that was lent. */
#include "checking.h"

typedef struct {
    const char *what;
    answer (*ask)(const uint8_t *, size_t);
    const char *term;
    size_t more;
    answer want;
} query;

static const query queries[] = {
    { "nodes of (\\11)(\\1)", copperjangle_nodes, "@\\@11\\1", 0, { .value = 7 } },
    { "height of (\\11)(\\1)", copperjangle_height, "@\\@11\\1", 0, { .value = 4 } },
    { "max_depth of \\\\1", copperjangle_max_depth, "\\\\1", 0, { .value = 2 } },
    { "max_free_index of \\5", copperjangle_max_free_index, "\\5", 0, { .value = 4 } },
    { "has_free_variables of \\2", copperjangle_has_free_variables, "\\2", 0, { .value = 1 } },
    { "has_free_variables of \\1", copperjangle_has_free_variables, "\\1", 0, { .value = 0 } },
    { "is_supercombinator of \\1", copperjangle_is_supercombinator, "\\1", 0, { .value = 1 } },
    { "height of 511 binders", copperjangle_height, "\\1", 510, { .value = 512 } },
    { "7: height 513", copperjangle_nodes, "\\1", 511, { .refusal = 7 } },
    { "10: no bytes", copperjangle_nodes, "", 0, { .refusal = 10, .place = 0 } },
    { "10: no such kind", copperjangle_height, "\\?", 0, { .refusal = 10, .place = 1 } },
    { "10: a variable cut off", copperjangle_max_depth, "\\\\v", 0, { .refusal = 10, .place = 2 } },
    { "10: a part is missing", copperjangle_max_free_index, "@1", 0, { .refusal = 10, .place = 10 } },
    { "10: bytes left over", copperjangle_has_free_variables, "11", 0, { .refusal = 10, .place = 9 } },
    { "10 by is_supercombinator", copperjangle_is_supercombinator, "@", 0, { .refusal = 10, .place = 1 } },
};

static void ask_queries(void)
{
    for (size_t i = 0; i < sizeof queries / sizeof *queries; i++) {
        const query *q = &queries[i];
        bytes term = coded(q->term, q->more);
        judge(q->what, q->ask(term.at, term.length), q->want, 1);
        free(term.at);
    }
}

/* A full tree: 2^levels variables under applications. */
static bytes tree(unsigned levels)
{
    if (levels == 0)
        return coded("1", 0);
    bytes half = tree(levels - 1), whole = { obtain(2 * half.length + 1), 2 * half.length + 1 };
    whole.at[0] = 3;
    memcpy(whole.at + 1, half.at, half.length);
    memcpy(whole.at + 1 + half.length, half.at, half.length);
    free(half.at);
    return whole;
}

static void ask_large(void)
{
    bytes term = tree(15), larger = tree(16);
    judge("nodes of a full tree", copperjangle_nodes(term.at, term.length), (answer){ .value = 65535 }, 1);
    judge("9: more than 65,536 nodes", copperjangle_nodes(larger.at, larger.length), (answer){ .refusal = 9 }, 1);
    free(term.at);
    free(larger.at);
}

static void ask_equality(const char *what, const char *first, const char *second, answer want)
{
    bytes f = coded(first, 0), s = coded(second, 0);
    judge(what, copperjangle_equality(f.at, f.length, s.at, s.length), want, 1);
    free(f.at);
    free(s.at);
}

static void print_case(const char *what, uint64_t notation, const char *form, size_t out_length, answer want,
    const char *wanted)
{
    bytes term = coded(form, 0), text = text_of(wanted, 0);
    lent l = lend(out_length, 0);
    answer got = copperjangle_print(notation, term.at, term.length, l.out, l.out_length);
    judge(what, got, want, as_promised(&l, text, 0));
    free(term.at);
    free(text.at);
    give_back(l);
}

static void ask_print(void)
{
    print_case("print (\\11)(\\1)", COPPERJANGLE_DE_BRUIJN, "@\\@11\\1", 15, (answer){ .value = 11 },
        "(\xCE\xBB" "11)(\xCE\xBB" "1)");
    print_case("print it in classic notation", COPPERJANGLE_CLASSIC, "@\\@11\\1", 17, (answer){ .value = 17 },
        "(\xCE\xBB" "a.a a) (\xCE\xBB" "a.a)");
    print_case("1 by print: notation 2", 2, "1", 5, (answer){ .refusal = 1 }, "");
    print_case("10 by print", COPPERJANGLE_CLASSIC, "@1", 5, (answer){ .refusal = 10, .place = 10 }, "");
    print_case("13: a text of 11 bytes in 10", COPPERJANGLE_DE_BRUIJN, "@\\@11\\1", 10,
        (answer){ .refusal = 13, .value = 11 }, "");
}

/* A pointer of length 0 may be NULL. */
static void ask_by_null(void)
{
    const uint8_t identity[] = { 2, 1, 1, 0, 0, 0, 0, 0, 0, 0 }, one[] = { '1' };
    judge("10: no bytes, by NULL", copperjangle_nodes(NULL, 0), (answer){ .refusal = 10 }, 1);
    judge("13: how long is the text", copperjangle_print(COPPERJANGLE_CLASSIC, identity, sizeof identity, NULL, 0),
        (answer){ .refusal = 13, .value = 5 }, 1);
    judge("2: nothing lent", copperjangle_parse(COPPERJANGLE_DE_BRUIJN, 1, one, sizeof one, NULL, 0, NULL, 0),
        (answer){ .refusal = 2 }, 1);
}

enum entry { PARSE, APPLY, ETA, REDUCE };

/* A call that takes output and work room: a little more of both than it asks for, or one less. */
typedef struct {
    const char *what;
    enum entry entry;
    uint64_t number, limit, cap; /* the number is a notation's or an order's */
    const char *first, *second;
    size_t more;
    int less_out, less_room;
    answer want;         /* but for the value, which is the length of what is reached */
    const char *reached; /* nothing if refused */
} call;

static const call calls[] = {
    { "parse (\\11)(\\1)", PARSE, .cap = 7, .first = "(\\11)(\\1)", .reached = "@\\@11\\1" },
    { "parse \\a.\\b.a b", PARSE, .number = COPPERJANGLE_CLASSIC, .cap = 9, .first = "\\a.\\b.a b",
        .reached = "\\\\@21" },
    { "1: notation 2", PARSE, .number = 2, .cap = 7, .first = "1", .want = { .refusal = 1 } },
    { "1: cap 0", PARSE, .first = "1", .want = { .refusal = 1 } },
    { "2: a byte too little", PARSE, .cap = 7, .first = "1", .less_out = 1, .want = { .refusal = 2 } },
    { "2: a number too little", PARSE, .cap = 7, .first = "1", .less_room = 1, .want = { .refusal = 2 } },
    { "a text of 2,097,152 bytes", PARSE, .cap = 1, .first = " 1", .more = 2097150, .reached = "1" },
    { "3: one byte more", PARSE, .cap = 1, .first = " 1", .more = 2097151, .want = { .refusal = 3 } },
    { "4: byte 128", PARSE, .cap = 7, .first = "1\x80", .want = { .refusal = 4, .place = 1 } },
    { "5: CE BB CE BB [", PARSE, .cap = 7, .first = "\xCE\xBB\xCE\xBB[",
        .want = { .refusal = 5, .place = 2, .code = 91 } },
    { "6: a", PARSE, .number = COPPERJANGLE_CLASSIC, .cap = 7, .first = "a", .want = { .refusal = 6 } },
    { "7: 513 parentheses", PARSE, .cap = 7, .first = "(1", .more = 512, .want = { .refusal = 7 } },
    { "8: the empty text", PARSE, .cap = 7, .first = "", .want = { .refusal = 8 } },
    { "9: 3 nodes under cap 2", PARSE, .cap = 2, .first = "11", .want = { .refusal = 9 } },
    { "apply \\\\2 to 3", APPLY, .cap = 3, .first = "\\\\2", .second = "3", .reached = "\\4" },
    { "1: cap 65,537", APPLY, .cap = 65537, .first = "\\1", .second = "1", .want = { .refusal = 1 } },
    { "2 by apply", APPLY, .cap = 3, .first = "\\1", .second = "1", .less_out = 1, .less_room = 1,
        .want = { .refusal = 2 } },
    { "10 of the argument", APPLY, .cap = 3, .first = "\\1", .second = "@", .want = { .refusal = 10, .place = 1 } },
    { "9 of the abstraction", APPLY, .cap = 3, .first = "\\@11", .second = "@", .want = { .refusal = 9 } },
    { "11: apply 1 to 1", APPLY, .cap = 3, .first = "1", .second = "1", .want = { .refusal = 11 } },
    { "12: apply \\\\2 to 2^64 - 1", APPLY, .cap = 3, .first = "\\\\2", .second = "M", .want = { .refusal = 12 } },
    { "eta \\21, limit 0", ETA, .cap = 9, .first = "\\@21", .want = { .finished = 1, .steps = 1 }, .reached = "1" },
    { "eta \\\\321, limit 1", ETA, .limit = 1, .cap = 9, .first = "\\\\@@321",
        .want = { .steps = 1 }, .reached = "\\@21" },
    { "1 by eta", ETA, .first = "1", .want = { .refusal = 1 } },
    { "2 by eta", ETA, .cap = 9, .first = "1", .less_room = 1, .want = { .refusal = 2 } },
    { "7 by eta", ETA, .cap = 999, .first = "\\1", .more = 511, .want = { .refusal = 7 } },
    { "reduce (\\11)(\\1), NOR", REDUCE, .limit = 2, .cap = 7, .first = "@\\@11\\1",
        .want = { .finished = 1, .steps = 2 }, .reached = "\\1" },
    { "reduce (\\11)(\\11), NOR", REDUCE, .limit = 3, .cap = 9, .first = "@\\@11\\@11",
        .want = { .steps = 3 }, .reached = "@\\@11\\@11" },
    { "1: order 7", REDUCE, .number = 7, .limit = 3, .cap = 9, .first = "1", .want = { .refusal = 1 } },
    { "1: limit 0", REDUCE, .number = COPPERJANGLE_HAP, .cap = 9, .first = "1", .want = { .refusal = 1 } },
    { "1: limit 1,000,001", REDUCE, .number = COPPERJANGLE_HAP, .limit = 1000001, .cap = 9, .first = "1",
        .want = { .refusal = 1 } },
    { "2 by reduce", REDUCE, .number = COPPERJANGLE_HAP, .limit = 3, .cap = 9, .first = "1", .less_out = 1,
        .want = { .refusal = 2 } },
    { "10 by reduce", REDUCE, .number = COPPERJANGLE_HAP, .limit = 3, .cap = 9, .first = "@",
        .want = { .refusal = 10, .place = 1 } },
    { "12 after 0 steps", REDUCE, .limit = 3, .cap = 9, .first = "@\\\\2M", .want = { .refusal = 12 } },
    { "9 after 1 step", REDUCE, .number = COPPERJANGLE_APP, .limit = 9, .cap = 20, .first = "@\\@@111\\@@111",
        .want = { .refusal = 9, .steps = 1 } },
};

static answer made(const call *c, bytes first, bytes second, const lent *l)
{
    switch (c->entry) {
    case PARSE:
        return copperjangle_parse(c->number, c->cap, first.at, first.length, l->out, l->out_length, l->room,
            l->room_length);
    case APPLY:
        return copperjangle_apply(c->cap, first.at, first.length, second.at, second.length, l->out, l->out_length,
            l->room, l->room_length);
    case ETA:
        return copperjangle_eta(c->limit, c->cap, first.at, first.length, l->out, l->out_length, l->room,
            l->room_length);
    default:
        return copperjangle_reduce(c->number, c->limit, c->cap, first.at, first.length, l->out, l->out_length,
            l->room, l->room_length);
    }
}

static void make_calls(void)
{
    for (size_t i = 0; i < sizeof calls / sizeof *calls; i++) {
        const call *c = &calls[i];
        size_t zeros = c->want.refusal == 1 || c->want.refusal == 2 ? 0 : COPPERJANGLE_ROOM_PER_NODE * c->cap;
        size_t out_length = COPPERJANGLE_OUTPUT_PER_NODE * c->cap, room_length = COPPERJANGLE_ROOM_PER_NODE * c->cap;
        lent l = lend(c->less_out ? out_length - 1 : out_length + 3, c->less_room ? room_length - 1 : room_length + 2);
        bytes first = c->entry == PARSE ? text_of(c->first, c->more) : coded(c->first, c->more);
        bytes second = coded(c->second, 0), reached = coded(c->reached, 0);
        answer got = made(c, first, second, &l), want = c->want;
        want.value = reached.length;
        judge(c->what, got, want, as_promised(&l, reached, zeros));
        free(first.at);
        free(second.at);
        free(reached.at);
        give_back(l);
    }
}

/* The whole way: a text is parsed, reduced and printed. */
static void show(const char *written)
{
    enum { CAP = 100 };
    uint8_t term[9 * CAP], reached[9 * CAP], text[400];
    uint64_t room[8 * CAP];
    answer read = copperjangle_parse(COPPERJANGLE_DE_BRUIJN, CAP, (const uint8_t *)written, strlen(written), term,
        sizeof term, room, 8 * CAP);
    answer run = copperjangle_reduce(COPPERJANGLE_NOR, 10, CAP, term, read.value, reached, sizeof reached, room,
        8 * CAP);
    answer print = copperjangle_print(COPPERJANGLE_DE_BRUIJN, reached, run.value, text, sizeof text);
    printf("%s in %" PRIu64 " steps to %.*s\n", written, run.steps, (int)print.value, (const char *)text);
}

int main(void)
{
    show("(\\11)(\\1)");
    ask_queries();
    ask_large();
    ask_by_null();
    ask_equality("equality of \\1 and \\1", "\\1", "\\1", (answer){ .value = 1 });
    ask_equality("equality of \\1 and \\2", "\\1", "\\2", (answer){ .value = 0 });
    ask_equality("10 of the second", "\\1", "?", (answer){ .refusal = 10, .place = 0 });
    ask_equality("10 of the first, before the second", "@1", "@", (answer){ .refusal = 10, .place = 10 });
    ask_print();
    make_calls();
    printf("%u checks, %u failed\n", checks, failures);
    return failures > 0;
}
