/* Two pupils' answers, 0.50 and 0.05, are marked against the key 0.5: examples/half.script, from C.
 *
 *     cc -Iinclude bindings/c/half.c target/lib/librimodaveck.a -o half && ./half
 *
 * The numbers of operators are the author's own: 1 is a digit, its payload says which; 2 is what stands behind the point, its
 * children the digits; 3 is a decimal number, its children the digit before the point and what stands behind it.
 *
 * A mark has three outcomes. An answer is right or wrong only where every call that the mark rests on was carried out; where
 * one was refused, the answer is not marked. */
#include <inttypes.h>
#include <stdio.h>
#include <stdlib.h>

#include "rimodaveck.h"

enum { DIGIT = 1, BEHIND = 2, DECIMAL = 3 };

/* A form that was added, or the number of the refusal that kept it out. */
typedef struct form {
    uint32_t no;
    uint32_t id;
} form;

/* The words of a graph, and the number of the refusal of a call that every mark rests on. */
typedef struct sheet {
    uint32_t *ws;
    size_t len;
    uint32_t no;
} sheet;

static form add(sheet *s, uint32_t op, uint32_t payload, const form *parts, size_t count)
{
    uint32_t kids[RIMO_CHILDREN];
    for (size_t i = 0; i < count; i++) {
        if (parts[i].no)
            return parts[i];
        kids[i] = parts[i].id;
    }
    rimo_reply r = rimo_add(s->ws, s->len, op, payload, kids, count);
    return (form){r.number, (uint32_t)r.first};
}

static form digit(sheet *s, uint32_t d) { return add(s, DIGIT, d, NULL, 0); }
static form behind1(sheet *s, form a) { return add(s, BEHIND, 0, &a, 1); }
static form behind2(sheet *s, form a, form b) { return add(s, BEHIND, 0, (form[]){a, b}, 2); }
static form decimal(sheet *s, form before, form behind) { return add(s, DECIMAL, 0, (form[]){before, behind}, 2); }

/* The author states that two forms are equal, and what follows is drawn. How many more pairs that joined. */
static uint64_t state(sheet *s, form a, form b)
{
    uint32_t no = a.no ? a.no : b.no;
    if (!no)
        no = rimo_union(s->ws, s->len, a.id, b.id).number;
    rimo_reply r = rimo_rebuild(s->ws, s->len);
    s->no = s->no ? s->no : no ? no : r.number;
    return r.first;
}

static void mark(sheet *s, const char *name, form answer, form key)
{
    uint32_t no = s->no ? s->no : key.no ? key.no : answer.no;
    if (!no) {
        rimo_reply a = rimo_find(s->ws, s->len, answer.id), k = rimo_find(s->ws, s->len, key.id);
        no = a.number ? a.number : k.number;
        if (!no)
            printf("%s is %s\n", name, a.first == k.first ? "right" : "wrong");
    }
    if (no)
        printf("%s is not marked: no %" PRIu32 "\n", name, no);
}

static void show_best(sheet *s, const char *name, form f)
{
    uint32_t list[64];
    rimo_reply r = rimo_find_best(s->ws, s->len, f.id, list, sizeof list / sizeof *list);
    if (f.no || r.number)
        return;
    printf("%s can be written with %" PRIu64 " forms:", name, r.first);
    for (uint64_t i = 0; i < r.second; i++)
        printf(" %" PRIu32, list[i]);
    printf("\n");
}

/* Marks both answers in a graph with room for n forms and 32 children. */
static void mark_sheet(uint32_t n, int tell)
{
    sheet s = {NULL, rimo_need(n, 32), 0};
    s.ws = malloc(s.len * sizeof *s.ws);
    if (!s.ws) {
        fprintf(stderr, "half: no memory for %zu words\n", s.len);
        exit(2);
    }
    s.no = rimo_setup(s.ws, s.len, n, 32).number;

    form zero = digit(&s, 0), five = digit(&s, 5);
    form half = behind1(&s, five), key = decimal(&s, zero, half);
    form padded = behind2(&s, five, zero), careful = decimal(&s, zero, padded);
    form small = behind2(&s, zero, five), mistaken = decimal(&s, zero, small);

    uint64_t more = state(&s, half, padded);
    mark(&s, "0.50", careful, key);
    mark(&s, "0.05", mistaken, key);
    if (tell) {
        printf("the rebuild joined %" PRIu64 " more\n", more);
        show_best(&s, "0.50", careful);
    }
    free(s.ws);
}

int main(void)
{
    mark_sheet(16, 1);
    printf("with room for 5 forms only:\n");
    mark_sheet(5, 0);
    return 0;
}
