/* What the cases of example.c are made of: inputs and buffers of exact lengths, and how an outcome is judged. */
#ifndef CHECKING_H
#define CHECKING_H

#include <inttypes.h>
#include <stdio.h>
#include <stdlib.h>
#include <string.h>

#include "copperjangle.h"

typedef copperjangle_answer answer;

/* Of exactly this length, so that a memory checker sees a step beyond it. */
typedef struct {
    uint8_t *at;
    size_t length;
} bytes;

/* Output and work room, filled with a pattern. */
typedef struct {
    uint8_t *out;
    size_t out_length;
    uint64_t *room;
    size_t room_length;
} lent;

#define OUT_FILL 0xA5
#define ROOM_FILL UINT64_C(0xA5A5A5A5A5A5A5A5)

static unsigned checks, failures;

static void *obtain(size_t size)
{
    void *at = malloc(size > 0 ? size : 1);
    if (at == NULL) {
        fputs("no memory\n", stderr);
        exit(2);
    }
    return at;
}

/* A form's bytes, after its first character so many times more: "(1" with 2 is "(((1". No form is the empty one. */
static bytes text_of(const char *form, size_t more)
{
    bytes text = { NULL, form == NULL ? 0 : strlen(form) + more };
    text.at = obtain(text.length);
    if (text.length > 0) {
        memset(text.at, form[0], more);
        memcpy(text.at + more, form, text.length - more);
    }
    return text;
}

/* A term, root first: \ an abstraction, @ an application, a digit a variable, M the greatest index.
   For bytes that are no term: v a variable's kind alone, ? a kind that there is not. */
static bytes coded(const char *form, size_t more)
{
    bytes text = text_of(form, more), term = { obtain(9 * text.length), 0 };
    for (size_t i = 0; i < text.length; i++) {
        uint8_t *at = term.at + term.length;
        uint8_t c = text.at[i];
        *at = c == '\\' ? 2 : c == '@' ? 3 : c == '?' ? 4 : 1;
        if (c == 'M' || (c >= '0' && c <= '9')) {
            memset(at + 1, c == 'M' ? 0xFF : 0, 8);
            at[1] = c == 'M' ? 0xFF : (uint8_t)(c - '0');
            term.length += 8;
        }
        term.length++;
    }
    free(text.at);
    bytes exact = { obtain(term.length), term.length };
    memcpy(exact.at, term.at, term.length);
    free(term.at);
    return exact;
}

static lent lend(size_t out_length, size_t room_length)
{
    lent l = { obtain(out_length), out_length, obtain(8 * room_length), room_length };
    memset(l.out, OUT_FILL, out_length);
    for (size_t i = 0; i < room_length; i++)
        l.room[i] = ROOM_FILL;
    return l;
}

/* Whether the output begins with what was wanted and goes on as it was, and just so much of the room is zero. */
static int as_promised(const lent *l, bytes wanted, size_t zeros)
{
    if (l->out_length < wanted.length || memcmp(l->out, wanted.at, wanted.length) != 0)
        return 0;
    for (size_t i = wanted.length; i < l->out_length; i++)
        if (l->out[i] != OUT_FILL)
            return 0;
    for (size_t i = 0; i < l->room_length; i++)
        if (l->room[i] != (i < zeros ? 0 : ROOM_FILL))
            return 0;
    return 1;
}

/* One line for each case. */
static void judge(const char *what, answer got, answer want, int promised)
{
    int same = got.refusal == want.refusal && got.finished == want.finished && got.value == want.value
        && got.steps == want.steps && got.place == want.place && got.code == want.code;
    checks++;
    if (!same || !promised)
        failures++;
    printf("%-44s refusal %" PRIu64 " finished %" PRIu64 " value %" PRIu64 " steps %" PRIu64 " place %" PRIu64
        " code %" PRIu64 "%s%s\n", what, got.refusal, got.finished, got.value, got.steps, got.place, got.code,
        same ? "" : "  FAILED: answer", promised ? "" : "  FAILED: buffers");
}

static void give_back(lent l)
{
    free(l.out);
    free(l.room);
}

#endif
