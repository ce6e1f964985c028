/* rimodaveck.h: the proved e-graph for C, C++ and every language that can call C.
 *
 * Link librimodaveck.a or librimodaveck.so, which `bindings/build` makes (x86-64 Linux). The library has no memory, no global
 * state and no input or output of its own. Of the C library it uses memcpy and memset. A call uses less than 16 KB of stack.
 *
 * A graph is `len` words of 32 bits at `ws`, which the caller lends to each call. No pointer is in them, so a graph is copied
 * by copying its words, and moved by moving them. Leave them as they are between calls, and hand them only to the version of
 * the library that made them: where things stand in them is not part of this interface.
 *
 * Nothing is asked of the numbers and words that are handed to a call: every call ends on any of them, touches nothing but what
 * it is lent, and refuses by number what it cannot do, in the order in which its numbers stand below. A refused call leaves a
 * graph that these calls made, and the list, as they were. On words that no calls could have left any call but setup may also
 * refuse by 9, and never on others. What the caller owes is what C cannot show:
 *
 *   lengths     every pointer leads to as many words as the length beside it says. With a length of 0 the pointer may be null.
 *   alignment   every pointer is aligned to 4 bytes.
 *   no overlap  words that a call may write are reached by no other argument: `list` shares no word with `ws`, nor `kids`
 *               with a `ws` that is not const.
 *   one writer  while a call runs on a `ws` that is not const, no other call runs on the same words. Calls on a `const` ws may
 *               run beside each other. (Sizes and forms leave the words as they were, but work in them meanwhile: they count
 *               as writers.)
 *
 * These names and their meaning stay. A later version may add functions, and more values where there are fewer now.
 */
#ifndef RIMODAVECK_H
#define RIMODAVECK_H

#include <stddef.h>
#include <stdint.h>

#ifdef __cplusplus
extern "C" {
#endif

/* What a call answers, by value. */
typedef struct rimo_reply {
    uint32_t number; /* 0: done. Else why not: enum rimo_no */
    uint32_t count;  /* how many of the two values below go with it. A refusal has none; a value that is not there is 0 */
    uint64_t first;
    uint64_t second;
} rimo_reply;

enum rimo_no {
    RIMO_DONE = 0,
    RIMO_BAD_LIMITS = 1,        /* setup: n is not from 1 to RIMO_IDS, or m is above RIMO_PLACES */
    RIMO_TOO_FEW_WORDS = 2,     /* setup: fewer words than rimo_need(n, m) */
    RIMO_BAD_HEAD = 3,          /* no graph is here: never set up, cut short, or overwritten */
    RIMO_UNKNOWN_ID = 4,        /* an id, or a child, that no call on this graph has answered */
    RIMO_TOO_MANY_CHILDREN = 5, /* more than RIMO_CHILDREN */
    RIMO_NO_ROOM = 6,           /* n ids exist, or the children would pass m places */
    RIMO_NOT_REBUILT = 7,       /* class lists, their total, sizes and forms: rebuild first */
    RIMO_TOO_LONG = 8,          /* the list that is lent is too short; nothing was written */
    RIMO_BROKEN_WORDS = 9       /* words that no calls could have left */
};

#define RIMO_CHILDREN 8   /* the most children of one node */
#define RIMO_IDS 65536    /* the most ids of a graph */
#define RIMO_PLACES 262144 /* the most children of all nodes of a graph together */

/* ---- room ---- */

/* How many words a graph with room for n ids and m child places needs; 0 where setup refuses the limits. */
size_t rimo_need(size_t n, size_t m);

/* Makes a fresh graph in the words, whatever they hold. No value. Words past the need are never touched.
 * Refuses by 1, 2. */
rimo_reply rimo_setup(uint32_t *ws, size_t len, size_t n, size_t m);

/* ---- calls that change the graph ---- */

/* Adds a node: an operator, a payload, and children, which are ids. first: the root of its class. A node that is there already,
 * up to equal children, is found and not added again, also where there is no room left. Refuses by 3, 5, 4, 6. */
rimo_reply rimo_add(uint32_t *ws, size_t len, uint32_t op, uint32_t payload, const uint32_t *kids, size_t kids_len);

/* The same; first: the id that the node has, which need not be a root. Refuses by 3, 5, 4, 6. */
rimo_reply rimo_add_uncanonical(uint32_t *ws, size_t len, uint32_t op, uint32_t payload, const uint32_t *kids, size_t kids_len);

/* States that two ids are equal. first: 1 where that joined two classes, 0 where the two were of one class before.
 * Refuses by 3, 4. */
rimo_reply rimo_union(uint32_t *ws, size_t len, uint32_t id1, uint32_t id2);

/* Draws what follows from the unions: nodes that are alike and have equal children are equal. first: how many more pairs of
 * classes that joined. Afterwards two ids have one root exactly when the unions force them equal. Refuses by 3. */
rimo_reply rimo_rebuild(uint32_t *ws, size_t len);

/* ---- calls that answer one number, and change nothing ---- */

/* first: the root of the class of a node that is there; no value where there is none. Refuses by 3, 5, 4. */
rimo_reply rimo_lookup(const uint32_t *ws, size_t len, uint32_t op, uint32_t payload, const uint32_t *kids, size_t kids_len);

/* first: the root of the id's class. An id stays for good; its root may be another after each union and rebuild, so compare roots
 * that were asked for after the last of these. Refuses by 3, 4. */
rimo_reply rimo_find(const uint32_t *ws, size_t len, uint32_t id);

/* first: 1 where there is no id yet, else 0. Refuses by 3. */
rimo_reply rimo_is_empty(const uint32_t *ws, size_t len);

/* first: 1 where a rebuild has ended and no node or union has come since, else 0. Refuses by 3. */
rimo_reply rimo_clean(const uint32_t *ws, size_t len);

/* first: the number of classes, at any time. Refuses by 3. */
rimo_reply rimo_number_of_classes(const uint32_t *ws, size_t len);

/* first: the number of nodes of all classes together, each class's equal nodes counted once. Refuses by 3, 7. */
rimo_reply rimo_total_number_of_nodes(const uint32_t *ws, size_t len);

/* ---- calls that write a list at the start of `list` ----
 *
 * first: how many words were written. The words of the list past them stay. In a list a node is its operator, payload, number of
 * children, and children. 5 * n + m words are enough for any list or form of a graph with the limits n and m. */

/* For each class in ascending root: the root, the number of nodes, and the nodes, with roots as children. Refuses by 3, 7, 8. */
rimo_reply rimo_classes(const uint32_t *ws, size_t len, uint32_t *list, size_t list_len);

/* The roots of the classes that have a node with this operator, ascending. Refuses by 3, 7, 8. */
rimo_reply rimo_classes_for_op(const uint32_t *ws, size_t len, uint32_t op, uint32_t *list, size_t list_len);

/* The nodes as they were given, in the order of their ids. Refuses by 3, 8. */
rimo_reply rimo_nodes(const uint32_t *ws, size_t len, uint32_t *list, size_t list_len);

/* The node of one id as it was given. Refuses by 3, 4, 8. */
rimo_reply rimo_id_to_node(const uint32_t *ws, size_t len, uint32_t id, uint32_t *list, size_t list_len);

/* ---- sizes and cheapest forms ---- */

/* first: the least number of nodes of any form in the id's class; 2^64 - 1 stands for that or more. Refuses by 3, 4, 7. */
rimo_reply rimo_find_best_cost(uint32_t *ws, size_t len, uint32_t id);

/* The same, and second: how many words were written at the start of `list`: the nodes of a form of that size, children first, the
 * form's own node last; a child is the number of its node in this list, from 0. Refuses by 3, 4, 7, 8. */
rimo_reply rimo_find_best(uint32_t *ws, size_t len, uint32_t id, uint32_t *list, size_t list_len);

#ifdef __cplusplus
}
#endif

#endif
