/* What include/rimodaveck.h promises at the edges: pointers and lengths, what stays as it was, a graph that is copied and moved, and
 * the stack that a call uses. Prints what does not hold, and ends with status 1 then. */
#define _XOPEN_SOURCE 700
#include <stdio.h>
#include <stdlib.h>
#include <string.h>
#include <ucontext.h>

#include "rimodaveck.h"

_Static_assert(sizeof(rimo_reply) == 24 && offsetof(rimo_reply, count) == 4 && offsetof(rimo_reply, first) == 8 && offsetof(rimo_reply, second) == 16,
               "the struct of an answer has no gaps");

static int faults;

static void must(int holds, const char *what)
{
    if (!holds) {
        printf("does not hold: %s\n", what);
        faults++;
    }
}

static int refused(rimo_reply r, uint32_t number) { return r.number == number && r.count == 0 && r.first == 0 && r.second == 0; }
static int answers(rimo_reply r, uint64_t first) { return r.number == 0 && r.count == 1 && r.first == first && r.second == 0; }

/* With a length of 0 a pointer may be null. */
static void null_pointers(void)
{
    uint32_t ws[608], out[4];
    must(refused(rimo_setup(NULL, 0, 16, 32), RIMO_TOO_FEW_WORDS), "setup of no words is refused by 2");
    must(refused(rimo_setup(NULL, 0, 0, 32), RIMO_BAD_LIMITS), "setup of bad limits is refused by 1, also of no words");
    must(refused(rimo_find(NULL, 0, 0), RIMO_BAD_HEAD), "find in no words is refused by 3");
    must(refused(rimo_rebuild(NULL, 0), RIMO_BAD_HEAD), "rebuild of no words is refused by 3");
    must(refused(rimo_classes(NULL, 0, NULL, 0), RIMO_BAD_HEAD), "classes of no words is refused by 3");
    must(rimo_need(16, 32) == 608 && rimo_setup(ws, 608, 16, 32).number == 0, "608 words are enough for 16 forms with 32 children");
    must(answers(rimo_nodes(ws, 608, NULL, 0), 0), "no nodes fit no words");
    must(rimo_lookup(ws, 608, 1, 0, NULL, 0).count == 0, "a node without children is looked up and not found");
    must(answers(rimo_add(ws, 608, 1, 0, NULL, 0), 0), "a node without children is added");
    must(refused(rimo_nodes(ws, 608, NULL, 0), RIMO_TOO_LONG), "one node does not fit no words");
    must(refused(rimo_nodes(ws, 608, out, 2), RIMO_TOO_LONG), "one node does not fit two words");
    must(answers(rimo_nodes(ws, 608, out, 3), 3) && out[0] == 1 && out[1] == 0 && out[2] == 0, "one node fits three words");
    must(refused(rimo_id_to_node(ws, 608, 0, out, 2), RIMO_TOO_LONG), "the node of an id does not fit two words");
    must(answers(rimo_id_to_node(ws, 608, 0, out, 3), 3), "the node of an id fits three words");
}

/* Children up to the most, and past it: none of them is looked at when there are too many. */
static void many_children(void)
{
    uint32_t ws[608], kids[100] = {0};
    rimo_setup(ws, 608, 16, 32);
    rimo_add(ws, 608, 1, 0, NULL, 0);
    must(answers(rimo_add(ws, 608, 2, 0, kids, RIMO_CHILDREN), 1), "as many children as there may be");
    for (size_t n = RIMO_CHILDREN + 1; n <= 100; n++) {
        kids[n - 1] = 7;
        must(refused(rimo_add(ws, 608, 2, 0, kids, n), RIMO_TOO_MANY_CHILDREN), "too many children are refused by 5, also unknown ones");
        must(refused(rimo_lookup(ws, 608, 2, 0, kids, n), RIMO_TOO_MANY_CHILDREN), "the same of a lookup");
    }
    must(refused(rimo_add(ws, 608, 2, 0, (uint32_t[]){0, 2}, 2), RIMO_UNKNOWN_ID), "an unknown child is refused by 4");
}

/* Words past the need stay, a refused call changes none, and a slice that is cut short is no graph. */
static void what_stays(void)
{
    uint32_t ws[700], kept[700];
    for (size_t i = 0; i < 700; i++)
        ws[i] = 0xC0FFEE;
    rimo_setup(ws, 700, 16, 32);
    rimo_add(ws, 700, 1, 0, NULL, 0);
    rimo_add(ws, 700, 2, 0, (uint32_t[]){0, 0}, 2);
    rimo_union(ws, 700, 0, 1);
    rimo_rebuild(ws, 700);
    rimo_find_best_cost(ws, 700, 1);
    int past = 1;
    for (size_t i = 608; i < 700; i++)
        past = past && ws[i] == 0xC0FFEE;
    must(past, "words past the need are never touched");
    memcpy(kept, ws, sizeof ws);
    must(refused(rimo_union(ws, 700, 0, 2), RIMO_UNKNOWN_ID), "an unknown id is refused by 4");
    must(refused(rimo_setup(ws, 700, 0, 0), RIMO_BAD_LIMITS), "limits out of range are refused by 1");
    must(refused(rimo_setup(ws, 700, 16, 60), RIMO_TOO_FEW_WORDS), "limits that need more words are refused by 2");
    must(memcmp(kept, ws, sizeof ws) == 0, "a refused call changes no word");
    must(answers(rimo_clean(ws, 700), 1), "a refused union leaves the graph clean");
    must(answers(rimo_find(ws, 608, 1), rimo_find(ws, 700, 1).first), "the words of the need are enough");
    must(refused(rimo_find(ws, 607, 1), RIMO_BAD_HEAD), "one word less is no graph");
}

/* A graph is its words: a copy is another graph, at another place. */
static void copies(void)
{
    uint32_t ws[608], other[609];
    rimo_setup(ws, 608, 16, 32);
    for (uint32_t i = 0; i < 3; i++)
        rimo_add(ws, 608, 1, i, NULL, 0);
    memcpy(other + 1, ws, sizeof ws);
    rimo_union(other + 1, 608, 0, 2);
    rimo_rebuild(other + 1, 608);
    must(answers(rimo_find(other + 1, 608, 2), 0) && answers(rimo_find(ws, 608, 2), 2), "a union in the copy is none in the graph");
    must(answers(rimo_clean(ws, 608), 0) && answers(rimo_clean(other + 1, 608), 1), "a rebuild of the copy is none of the graph");
    must(answers(rimo_add(other + 1, 608, 1, 3, NULL, 0), 3), "the copy goes on");
}

/* ---- the stack ---- */

enum { STACK = 1 << 18, PROMISED = 16 << 10 };
static unsigned char stack[STACK];
static ucontext_t here, there;
static uint32_t *words;
static size_t len;
static uint32_t list[5 * 65536 + 262144];

static void check_done(rimo_reply r) { must(r.number == 0, "a call at the limits is done"); }

/* Every call on a graph with as many ids as there may be, most of them in one class, so that the sort goes as deep as it can. */
static void every_call(void)
{
    check_done(rimo_setup(words, len, RIMO_IDS, RIMO_PLACES));
    for (uint32_t i = 0; i < RIMO_IDS / 2; i++)
        check_done(rimo_add(words, len, 1, RIMO_IDS - i, NULL, 0));
    for (uint32_t i = 0; i < RIMO_IDS / 2; i++)
        check_done(rimo_add_uncanonical(words, len, 2, RIMO_IDS - i, (uint32_t[]){i, i, i, i, i, i, i, i}, 8));
    for (uint32_t i = 1; i < RIMO_IDS / 2; i++)
        check_done(rimo_union(words, len, RIMO_IDS / 2, RIMO_IDS / 2 + i));
    check_done(rimo_rebuild(words, len));
    check_done(rimo_lookup(words, len, 1, 5, NULL, 0));
    check_done(rimo_find(words, len, RIMO_IDS - 1));
    check_done(rimo_is_empty(words, len));
    check_done(rimo_clean(words, len));
    check_done(rimo_number_of_classes(words, len));
    check_done(rimo_total_number_of_nodes(words, len));
    check_done(rimo_classes(words, len, list, sizeof list / sizeof *list));
    check_done(rimo_classes_for_op(words, len, 2, list, sizeof list / sizeof *list));
    check_done(rimo_nodes(words, len, list, sizeof list / sizeof *list));
    check_done(rimo_id_to_node(words, len, RIMO_IDS - 1, list, 11));
    check_done(rimo_find_best_cost(words, len, RIMO_IDS - 1));
    check_done(rimo_find_best(words, len, RIMO_IDS - 1, list, sizeof list / sizeof *list));
}

static void stack_use(void)
{
    len = rimo_need(RIMO_IDS, RIMO_PLACES);
    words = malloc(len * sizeof *words);
    if (!words || getcontext(&there)) {
        must(0, "there is memory for a graph at the limits, and a stack for its calls");
        return;
    }
    memset(stack, 0xA5, sizeof stack);
    there.uc_stack.ss_sp = stack;
    there.uc_stack.ss_size = sizeof stack;
    there.uc_link = &here;
    makecontext(&there, every_call, 0);
    swapcontext(&here, &there);
    size_t unused = 0;
    while (unused < STACK && stack[unused] == 0xA5)
        unused++;
    printf("the calls used %zu bytes of stack\n", (size_t)STACK - unused);
    must(STACK - unused < PROMISED, "a call uses less than 16 KB of stack");
    free(words);
}

int main(void)
{
    null_pointers();
    many_children();
    what_stays();
    copies();
    stack_use();
    return faults > 0;
}
