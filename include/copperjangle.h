/*
 * Copperjangle: lambda terms, read, printed, queried and reduced.
 *
 * Link target/staticlib/libcopperjangle.a (x86-64 Linux). It needs memset of the C library and nothing else.
 *
 * TERMS cross as bytes, root first, left before right: one byte of kind, then what the kind asks for.
 *     1  a variable: eight bytes of index follow, low byte first
 *     2  an abstraction: its body follows
 *     3  an application: two terms follow
 * Under d abstractions the indices 1 to d are bound, a greater one is free, and 0 is undefined. Every variable,
 * abstraction and application is one node. A term may have 65,536 nodes and a height of 512.
 *
 * BUFFERS are lent for the time of a call. Each is a pointer and a length, in bytes or, for the work room, in numbers
 * of 64 bits. What the caller owes, and nothing checks:
 *   - a pointer is good for its whole length, and the work room is aligned as uint64_t asks. Where the length is 0 the
 *     pointer may be NULL: it is not followed;
 *   - out and room overlap neither each other nor an input. Inputs may overlap, or be the same.
 * Any bytes may stand in the inputs, and any number may be passed for a notation, an order, a limit or a cap.
 *
 * WHAT BECOMES OF OUT AND ROOM. After success the first `value` bytes of out are the answer, and the rest of out is
 * unchanged. After any refusal all of out is unchanged. The first numbers of room, eight for each node of the cap, are
 * zero after every call, except after the refusals 1 and 2, which change nothing. The rest of room never changes.
 *
 * THREADS. The functions have no global state, allocate nothing, call nothing of yours and return the same for the
 * same arguments: any number of them may run at once, on buffers that are not shared.
 *
 * STACK. Measured on the deepest terms, with an archive of an older kit of the toolchain, reduce takes 259 KiB of stack
 * and every other function less than 150 KiB. No input makes calls nest without bound, but how much stack they take is
 * not proved (docs/TRUST.md).
 */
#ifndef COPPERJANGLE_H
#define COPPERJANGLE_H

#include <stddef.h>
#include <stdint.h>

#ifdef __cplusplus
extern "C" {
#endif

enum {
    COPPERJANGLE_MOST_NODES = 65536,   /* the greatest cap */
    COPPERJANGLE_MOST_HEIGHT = 512,
    COPPERJANGLE_MOST_STEPS = 1000000, /* the greatest limit of reduce */
    COPPERJANGLE_MOST_TEXT = 2097152,  /* bytes */
    COPPERJANGLE_OUTPUT_PER_NODE = 9,  /* bytes of out for each node of the cap */
    COPPERJANGLE_ROOM_PER_NODE = 8     /* numbers of room for each node of the cap */
};

/* Notations of text. */
enum {
    COPPERJANGLE_DE_BRUIJN = 0, /* \11 */
    COPPERJANGLE_CLASSIC = 1    /* \a.a a */
};

/* Orders of reduction. */
enum {
    COPPERJANGLE_NOR = 0, /* normal */
    COPPERJANGLE_CBN = 1, /* call by name */
    COPPERJANGLE_HSP = 2, /* head spine */
    COPPERJANGLE_HNO = 3, /* hybrid normal */
    COPPERJANGLE_APP = 4, /* applicative */
    COPPERJANGLE_CBV = 5, /* call by value */
    COPPERJANGLE_HAP = 6  /* hybrid applicative */
};

/* Refusals. */
enum {
    COPPERJANGLE_OUTSIDE_BOUNDS = 1,          /* a notation, an order, a cap or a limit that there is not */
    COPPERJANGLE_TOO_LITTLE_ROOM = 2,         /* out or room too short for the cap */
    COPPERJANGLE_TEXT_TOO_LONG = 3,
    COPPERJANGLE_OUTSIDE_DOMAIN = 4,          /* a byte that no text has: place is its offset */
    COPPERJANGLE_INVALID_CHARACTER = 5,       /* place counts characters, code is the code point */
    COPPERJANGLE_UNDEFINED_FREE_VARIABLE = 6, /* a name that no open binder has */
    COPPERJANGLE_TOO_HIGH = 7,                /* nesting or height above 512 */
    COPPERJANGLE_EMPTY_EXPRESSION = 8,
    COPPERJANGLE_TOO_MANY_NODES = 9,          /* more than the cap */
    COPPERJANGLE_NOT_A_TERM = 10,             /* the bytes are not one whole term: place is the offset */
    COPPERJANGLE_NOT_ABS = 11,                /* what is to be applied is no abstraction */
    COPPERJANGLE_INDEX_TOO_GREAT = 12,        /* an index of the next term above 2^64 - 1 */
    COPPERJANGLE_OUTPUT_TOO_SHORT = 13        /* for a text: value is the length needed */
};

/* What a call answers. A field that has nothing to say is 0. */
typedef struct {
    uint64_t refusal;  /* 0, or the number of the refusal */
    uint64_t finished; /* of reduce and eta: 1 if no step is left, else 0 */
    uint64_t value;    /* the length of what stands first in out, or a query's answer; after 13 the length needed */
    uint64_t steps;    /* of reduce and eta: the steps completed, also before a refusal */
    uint64_t place;    /* after 4 and 10 the offset in bytes, after 5 the place in characters */
    uint64_t code;     /* after 5 the code point */
} copperjangle_answer;

/*
 * QUERIES of one coded term. They refuse, in this sequence:
 *     10  the bytes are not one whole term. place is the offset of the first kind that is not 1, 2 or 3, or of a
 *         variable whose eight bytes are not all there, or the length where a term is missing, or the first byte after
 *         the term: for 03 it is 1
 *      7  height above 512
 *      9  more than 65,536 nodes
 */

/* How many variables, abstractions and applications there are. */
copperjangle_answer copperjangle_nodes(const uint8_t *term, size_t term_length);

/* 1 for a variable, and one more than the taller part for any other node. */
copperjangle_answer copperjangle_height(const uint8_t *term, size_t term_length);

/* The most abstractions on a path. */
copperjangle_answer copperjangle_max_depth(const uint8_t *term, size_t term_length);

/* The greatest of index minus abstractions above it, and at least 0. */
copperjangle_answer copperjangle_max_free_index(const uint8_t *term, size_t term_length);

/* 1 if some index is 0 or free, else 0. */
copperjangle_answer copperjangle_has_free_variables(const uint8_t *term, size_t term_length);

/* 1 if every index is bound, else 0. */
copperjangle_answer copperjangle_is_supercombinator(const uint8_t *term, size_t term_length);

/* 1 if two terms are the same, else 0. The first input's refusals come before the second's. */
copperjangle_answer copperjangle_equality(const uint8_t *first, size_t first_length,
    const uint8_t *second, size_t second_length);

/*
 * The TEXT of a coded term, written to out without a final zero. The lambda sign is written CE BB. Refuses:
 *      1  a notation that is neither 0 nor 1
 *     10, 7, 9  as the queries
 *     13  out is shorter than the text: value is the length needed. To ask for it, pass NULL and 0 for out
 */
copperjangle_answer copperjangle_print(uint64_t notation, const uint8_t *term, size_t term_length,
    uint8_t *out, size_t out_length);

/*
 * The TERM of a text, written to out as bytes. `\` and CE BB are both the lambda sign. Refuses:
 *      1  a notation that is neither 0 nor 1, or a cap that is not 1 to 65,536
 *      2  out shorter than 9 bytes, or room shorter than 8 numbers, for each node of the cap
 *      3  a text of more than 2,097,152 bytes
 *      4  a byte that is not 32 to 126, 9, 10, 13 or of CE BB: place is the first one's offset
 *      5  a character that cannot stand where it does: for CE BB CE BB [ place is 2 and code is 91
 *      6  a name that no open binder has, as `a`; or 7, more than 512 parentheses and binders open: the first of these
 *      8  a start, a binder or a `(` with nothing after it, as in the empty text
 *      7  height above 512
 *      9  more nodes than the cap
 */
copperjangle_answer copperjangle_parse(uint64_t notation, uint64_t cap, const uint8_t *text, size_t text_length,
    uint8_t *out, size_t out_length, uint64_t *room, size_t room_length);

/*
 * The abstraction's body with the argument PUT IN, written to out as bytes. Refuses:
 *      1  a cap that is not 1 to 65,536
 *      2  as parse
 *     10, 7, 9 of the abstraction's bytes, then of the argument's; 9 is by the cap
 *     11  what is to be applied is a variable or an application
 *     12, 7, 9 of the result: for \\2 applied to the index 2^64 - 1 it is 12
 */
copperjangle_answer copperjangle_apply(uint64_t cap, const uint8_t *abstraction, size_t abstraction_length,
    const uint8_t *argument, size_t argument_length, uint8_t *out, size_t out_length,
    uint64_t *room, size_t room_length);

/*
 * ETA steps, at most as many as the limit, or with limit 0 as many as there are; the term reached is written to out.
 * `\(M 1)` becomes M, with its free indices lowered, if M has neither the binder nor index 0 in it. Refuses:
 *      1  a cap that is not 1 to 65,536
 *      2  as parse
 *     10, 7, 9 of the input; 9 is by the cap
 * No step is refused.
 */
copperjangle_answer copperjangle_eta(uint64_t limit, uint64_t cap, const uint8_t *term, size_t term_length,
    uint8_t *out, size_t out_length, uint64_t *room, size_t room_length);

/*
 * REDUCTION by an order, at most as many steps as the limit; the term reached is written to out. finished is 1 if no
 * step is left, also where the steps are as many as the limit. Refuses:
 *      1  an order that is not 0 to 6, a limit that is not 1 to 1,000,000, or a cap that is not 1 to 65,536
 *      2  as parse
 *     10, 7, 9 of the input; 9 is by the cap
 *     12, 7, 9 of the next term, before each step short of the limit: steps tells those completed. (\111)(\111) under a
 *         cap of 20 is refused by 9 after 1 step
 */
copperjangle_answer copperjangle_reduce(uint64_t order, uint64_t limit, uint64_t cap,
    const uint8_t *term, size_t term_length, uint8_t *out, size_t out_length, uint64_t *room, size_t room_length);

#ifdef __cplusplus
}
#endif

#endif
