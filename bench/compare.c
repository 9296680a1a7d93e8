/*
 * Compares the library with plain C on many random calls of the twelve functions, sound and damaged.
 *
 *     compare [CALLS [SEED]]
 *
 * Each call is made by both on equal copies of what is lent, which stand between guards. Compared are the answers and all that was
 * lent; besides, a refusal has to leave everything as it came, and nothing outside of what is lent may change. The same seed gives
 * the same calls.
 */
#define _XOPEN_SOURCE 700

#include <signal.h>
#include <stdio.h>
#include <stdlib.h>
#include <string.h>

#include "inputs.h"

enum {
    DEFAULT_CALLS = 300000,
    GUARD = 64,                 /* bytes of guard on either side of what is lent, at least */
    SHIFTS = 16,                /* places that a lent part may have against a round address */
    BOOK_ROOM = BOOK_WORDS + 16,
    FILE_ROOM = FILE_HEAD + 2 * BOOK_ROOM + 16,
    TEXT_ROOM = 2048,
    LENT_ROOM = (FILE_ROOM + 31) / 16 * 16,
    SLOTS = 10,                 /* books that are kept from call to call */
    SINGLE_WORDS = 12,          /* words that an order of one node takes in a book of such orders */
    TOLD = 20,                  /* differences that are told one by one */
    SIGNAL_STACK = 65536,
    MOST_RULES = 64,            /* the most rules of a list */
    RULES_ROOM = 1 + (MOST_RULES + 1) * (2 + 2 * MOST_NODES) + ORDER_ROOM,
    NUMBERS = 33,               /* all answers' numbers are below it */
    VERDICTS = 20
};

enum function { OPEN, TEACH, WITHDRAW, JOIN, JUDGE, CHOOSE, CHECK, WRITE_FILE, READ_FILE, READ_TEXT, WRITE_TEXT, SUBTREE, FUNCTIONS };

/* What is known of each function: its name, how many of 100 calls are of it, and the numbers that it may answer. */
static const struct {
    const char *name;
    unsigned share;
    uint64_t numbers;
} functions[FUNCTIONS] = {
    {"open", 3, 1u << 0 | 1u << 3 | 1u << 4},
    {"teach", 20, 1u << 0 | 1u << 1 | 1u << 2 | 1u << 4 | 1u << 5 | 1u << 6 | 1u << 7},
    {"withdraw", 13, 1u << 0 | 1u << 1 | 1u << 2 | 1u << 4 | 1u << 5 | 1u << 8 | 1u << 9},
    {"join", 9, 1u << 0 | 1u << 4 | 1u << 5 | 1u << 6 | 1u << 7 | 1u << 9 | 1u << 15},
    {"judge", 11, 1u << 0 | 1u << 1 | 1u << 2 | 1u << 4 | 1u << 5 | 1u << 20 | 1u << 21 | 1u << 22},
    {"choose", 11, 1u << 0 | 1u << 1 | 1u << 2 | 1u << 4 | 1u << 5 | 1u << 20 | 1u << 21 | 1u << 22 | 1u << 30 | 1u << 31 | 1ull << 32},
    {"check", 5, 1u << 0 | 1u << 4 | 1u << 5 | 1u << 9},
    {"write_file", 6, 1u << 0 | 1u << 4 | 1u << 5 | 1u << 9 | 1u << 11},
    {"read_file", 8, 1u << 0 | 1u << 4 | 1u << 6 | 1u << 9 | 1u << 12 | 1u << 13 | 1u << 14},
    {"read_text", 6, 1u << 0 | 1u << 2 | 1u << 10 | 1u << 11},
    {"write_text", 5, 1u << 0 | 1u << 1 | 1u << 2 | 1u << 11},
    {"subtree", 3, 1u << 0 | 1u << 1}
};

/* A book's slice. */
struct book {
    size_t words;
    uint16_t at[BOOK_ROOM];
};

/* The text of an order form. */
struct text {
    size_t bytes;
    char at[TEXT_ROOM];
};

/* A rule list, sound or not. */
struct rules {
    size_t words;
    uint16_t at[RULES_ROOM];
};

/* A part that is lent: what stands in it before the call, and for each implementation a copy between guards. */
struct lent {
    size_t items;               /* how many words or bytes */
    size_t width;               /* bytes of an item */
    int writable;
    unsigned shift;             /* items between the guard's least end and the part */
    uint8_t guard[2];           /* what the guards are filled with, for each implementation */
    _Alignas(16) uint8_t before[LENT_ROOM];
    _Alignas(16) uint8_t arena[2][2 * GUARD + 2 * SHIFTS + LENT_ROOM];
};

/* A call: what it lends, in the order of its parameters, and the number that it gives besides. */
struct call {
    enum function function;
    unsigned lents;
    struct lent lent[3];
    uint16_t k;
    size_t line;
    struct book *keep;          /* the kept book that the call's book replaces where it is done, or NULL */
};

/* An answer of any function; for subtree, `written` is the part's words, and `number` is 1 where it has none. */
struct outcome {
    uint32_t number, line, written, start, image, below, there, place_below, place_above;
};

static const struct style styles[] = {
    {4, MOST_CHILDREN, 10, 0, 2, 3, 3},
    {4, MOST_CHILDREN, 10, 0, 4, 6, 8},
    {MOST_DEPTH, MOST_CHILDREN, 50, 2, 0, 0, 0},
    {MOST_DEPTH, 3, 70, 1, 0, 0, 0},
    {6, MOST_CHILDREN, 20, 3, 0, 0, 0},
    {MOST_DEPTH, 1, 100, 2, 0, 0, 0},
    {2, MOST_CHILDREN, 0, 2, 0, 0, 0},
    {MOST_DEPTH, 2, 90, 9, 0, 0, 0},
    {3, MOST_CHILDREN, 10, 500, 0, 0, 0}
};

static struct dice dice;
static struct book slots[SLOTS];
static unsigned lives[SLOTS];
static struct call call;
static struct book spare;
static unsigned long counts[FUNCTIONS][NUMBERS];
static unsigned long differences;
static unsigned long long seed = 1;
static unsigned long call_number;

/* Gives a number below a limit. */
static unsigned below(unsigned limit)
{
    return dice_below(&dice, limit);
}

/* Says whether a throw of so many in 100 falls. */
static int percent(unsigned share)
{
    return dice_percent(&dice, share);
}

/* Gives one of a list's numbers. */
static unsigned one_of(const unsigned *list, unsigned length)
{
    return list[below(length)];
}

#define ONE_OF(...) one_of((const unsigned[]){__VA_ARGS__}, sizeof((const unsigned[]){__VA_ARGS__}) / sizeof(unsigned))

/* ---- Orders ---- */

/* Gives how many nodes a new order has: mostly few. */
static unsigned some_nodes(void)
{
    return percent(70) ? 1 + below(12) : percent(80) ? 1 + below(MOST_NODES) : ONE_OF(13, 14, MOST_NODES - 1, MOST_NODES);
}

/* Grows a sound order. */
static void fresh_order(struct order *order)
{
    unsigned nodes = some_nodes();
    order_grow(order, &dice, nodes, &styles[below(sizeof styles / sizeof styles[0])]);
}

/* Grows an order that may be larger, deeper or wider than the limits, as far as its style lets it. */
static void unlimited_order(struct order *order)
{
    struct style style = {0, 0, 0, 0, 0, 0, 0};
    style.depth = percent(30) ? 1 + below(2) : MOST_DEPTH + below(3);
    style.children = MOST_CHILDREN + below(3);
    style.stretch = ONE_OF(0, 20, 80, 100);
    style.alphabet = 1 + below(4);
    unsigned nodes = ONE_OF(MOST_NODES - 1, MOST_NODES, MOST_NODES + 1, MOST_NODES + 1, MOST_NODES + 2, 10, 14, 20, 40, 100);
    order_grow(order, &dice, nodes, &style);
}

/* Writes the subtree at a place of a sound order, cut at so many levels below its top, to another order; gives the place behind it. */
static size_t put_cut(struct order *to, const struct order *from, size_t at, unsigned levels, int within)
{
    size_t next = at + 2;
    if (within) {
        to->at[to->words++] = from->at[at];
        to->at[to->words++] = levels ? from->at[at + 1] : 0;
    }
    for (unsigned child = from->at[at + 1]; child; child--)
        next = put_cut(to, from, next, levels ? levels - 1 : 0, within && levels);
    return next;
}

/* Cuts a sound order at a random depth, so that nodes look like leaves that were none. */
static void trim(struct order *order)
{
    struct order from = *order;
    order->words = 0;
    put_cut(order, &from, 0, below(6), 1);
}

/* Gives the place behind the subtree that starts at a place of a sound order. */
static size_t subtree_end(const struct order *order, size_t at)
{
    size_t open = 1;
    while (open && at + 1 < order->words) {
        open += order->at[at + 1];
        open--;
        at += 2;
    }
    return at;
}

/* Puts a subtree of one sound order in the place of one of another. */
static void graft(struct order *order, const struct order *from)
{
    size_t at = 2 * below((unsigned)(order->words / 2));
    size_t end = subtree_end(order, at);
    size_t source = 2 * below((unsigned)(from->words / 2));
    size_t length = subtree_end(from, source) - source;
    memmove(order->at + at + length, order->at + end, 2 * (order->words - end));
    memcpy(order->at + at, from->at + source, 2 * length);
    order->words = order->words - (end - at) + length;
}

/* Damages one word of an order. */
static void damage_order_word(struct order *order)
{
    size_t node = 2 * below((unsigned)(order->words / 2));
    size_t word = node + below(2);
    switch (below(6)) {
    case 0: order->at[node] = (uint16_t)ONE_OF(0, 10000, 65535, 9999, 1, 256); break;
    case 1: order->at[node + 1] = (uint16_t)ONE_OF(0, 1, 8, 9, 65535, 256, 32768); break;
    case 2: order->at[node + 1]++; break;
    case 3: order->at[node + 1]--; break;
    case 4: order->at[word] = (uint16_t)below(65536); break;
    default: order->at[node] = (uint16_t)(order->at[node] + (percent(50) ? 1 : -1)); break;
    }
}

/* Damages an order, so that mostly it is none. */
static void damage_order(struct order *order)
{
    if (order->words < 2 || order->words + 2 > ORDER_ROOM)
        fresh_order(order);
    switch (below(10)) {
    case 0: order->words = 0; break;
    case 1: order->words--; break;
    case 2: order->at[order->words++] = (uint16_t)below(3); break;
    case 3: order->words -= 2 * below((unsigned)(order->words / 2)); break;
    case 4: order->at[order->words++] = 1; order->at[order->words++] = 0; break;
    case 5: unlimited_order(order); break;
    case 6: unlimited_order(order); damage_order_word(order); break;
    case 7:
        order->words = ONE_OF(127, 129, 130, 131, 128, 200);
        for (size_t i = 0; i < order->words; i++)
            order->at[i] = (uint16_t)below(3);
        break;
    default: damage_order_word(order); break;
    }
}

/* Copies a random order that a book holds; says whether there is one. */
static int taught_order(struct order *order, const struct book *book)
{
    if (book->at[3] == 0)
        return 0;
    size_t at = HEAD_WORDS;
    for (unsigned skip = below(book->at[3]); skip; skip--)
        at += 2 + 2 * (size_t)book->at[at];
    order->words = 2 * (size_t)book->at[at];
    memcpy(order->at, book->at + at + 2, 2 * order->words);
    return 1;
}

/* Chooses an order for a call with a kept book: one that it holds, one like those, a new one, or a damaged one. */
static void some_order(struct order *order, const struct book *book, unsigned taught)
{
    struct order other;
    if (!percent(taught + 30) || !taught_order(order, book))
        fresh_order(order);
    else if (percent(10))
        trim(order);
    else if (percent(10))
        order->at[2 * below((unsigned)(order->words / 2))] ^= 1;
    else if (percent(30 * 100 / (taught + 30)) && taught_order(&other, book) && order->words + other.words <= ORDER_ROOM)
        graft(order, &other);
    if (percent(7))
        damage_order(order);
}

/* ---- Books ---- */

/* Copies a book to a slice of so many words, of which those behind the book are zero. */
static void copy_book(struct book *to, const struct book *from, size_t words)
{
    size_t copied = words < from->words ? words : from->words;
    to->words = words;
    memcpy(to->at, from->at, 2 * copied);
    memset(to->at + copied, 0, 2 * ((words > HEAD_WORDS ? words : HEAD_WORDS) - copied));
}

/* Finds a random entry of sections `from` to `to`, 0 to 3; gives its place, or 0 where there is none or it runs out of the slice. */
static size_t some_entry(const struct book *book, unsigned from, unsigned to, unsigned *section)
{
    unsigned total = 0, first = 0;
    for (unsigned s = 0; s <= to; s++) {
        total += s >= from ? book->at[3 + s] : 0;
        first += s < from ? book->at[3 + s] : 0;
    }
    if (total == 0)
        return 0;
    size_t at = HEAD_WORDS;
    unsigned index = first + below(total);
    for (unsigned skip = index; skip && at + 2 < book->words; skip--)
        at += 2 + 2 * (size_t)book->at[at];
    for (*section = 0; index >= book->at[3 + *section]; ++*section)
        index -= book->at[3 + *section];
    return at + 2 < book->words && book->at[at] && at + 2 + 2 * (size_t)book->at[at] <= book->words ? at : 0;
}

/* Takes an entry out of a book, which stays in form unless it is one of an order. */
static void remove_entry(struct book *book, size_t at, unsigned section)
{
    size_t length = 2 + 2 * (size_t)book->at[at];
    if (book->at[1] > book->words || at + length > book->at[1])
        return;
    memmove(book->at + at, book->at + at + length, 2 * (book->at[1] - at - length));
    book->at[1] = (uint16_t)(book->at[1] - length);
    memset(book->at + book->at[1], 0, 2 * length);
    book->at[3 + section]--;
    if (section == 0 && percent(90))
        book->at[2] = (uint16_t)(book->at[2] - 1);
}

/* Enters an entry a second time behind itself, with the second one's first code changed by a step of -1 to 1, where there is room. */
static void double_entry(struct book *book, size_t at, unsigned section)
{
    size_t length = 2 + 2 * (size_t)book->at[at];
    if (book->at[1] > book->words || at + length > book->at[1] || book->at[1] + length > book->words)
        return;
    memmove(book->at + at + length, book->at + at, 2 * (book->at[1] - at));
    book->at[1] = (uint16_t)(book->at[1] + length);
    book->at[3 + section]++;
    book->at[at + length + 2] = (uint16_t)(book->at[at + length + 2] + below(3) - 1);
    if (section == 0 && percent(90))
        book->at[2] = (uint16_t)(book->at[2] + book->at[at + 1]);
}

/* Swaps an entry with the one behind it. */
static void swap_entries(struct book *book, size_t at)
{
    uint16_t held[ORDER_ROOM];
    size_t length = 2 + 2 * (size_t)book->at[at];
    size_t next = at + length;
    if (length > ORDER_ROOM || next + 2 >= book->words)
        return;
    size_t next_length = 2 + 2 * (size_t)book->at[next];
    if (next + next_length > book->words)
        return;
    memcpy(held, book->at + at, 2 * length);
    memmove(book->at + at, book->at + next, 2 * next_length);
    memcpy(book->at + at + next_length, held, 2 * length);
}

/* Damages the first seven words. */
static void damage_head(struct book *book)
{
    unsigned s = 3 + below(3), any = below(HEAD_WORDS);
    switch (below(10)) {
    case 0: book->at[0] = (uint16_t)ONE_OF(0, 1, 2, 3, 4, 5, 6, 7, 65535, 258); break;
    case 1: book->at[1] = (uint16_t)ONE_OF(0, 6, 7, book->at[1] - 1, book->at[1] + 1, book->at[1] + 2, (unsigned)book->words, 65535); break;
    case 2: book->at[2] = (uint16_t)ONE_OF(0, book->at[2] - 1, book->at[2] + 1, 65535); break;
    case 3: book->at[s]++; book->at[s + 1]--; break;
    case 4: book->at[s]--; book->at[s + 1]++; break;
    case 5: book->at[3 + below(4)]++; break;
    case 6: book->at[3 + below(4)]--; break;
    case 7:
    case 8: book->at[0] = (uint16_t)(2 + below(5)); break;
    default: book->at[any] = (uint16_t)below(65536); break;
    }
}

/* Damages an entry at its place. */
static void damage_entry(struct book *book, size_t at, unsigned section)
{
    size_t node = at + 2 + 2 * below(book->at[at]);
    switch (below(12)) {
    case 0: book->at[at] = (uint16_t)ONE_OF(0, 65, book->at[at] - 1, book->at[at] + 1, 32768u + book->at[at]); break;
    case 1: book->at[at + 1] = 0; break;
    case 2: book->at[at + 1]++; break;
    case 3: book->at[at + 1]--; break;
    case 4: book->at[at + 1] = (uint16_t)ONE_OF(65534, 65535); break;
    case 5: book->at[node] = (uint16_t)(book->at[node] + (percent(50) ? 1 : -1)); break;
    case 6: book->at[node] = (uint16_t)ONE_OF(0, 1, 9999, 10000, 65535); break;
    case 7: book->at[node + 1] = (uint16_t)(book->at[node + 1] + (percent(50) ? 1 : -1)); break;
    case 8: book->at[node + 1] = (uint16_t)ONE_OF(0, 8, 9, 65535); break;
    case 9: swap_entries(book, at); break;
    case 10: double_entry(book, at, section); break;
    default: remove_entry(book, at, section); break;
    }
}

/* Gives the sum of the counts of the orders that a book in form holds. */
static unsigned long sum_counts(const struct book *book)
{
    unsigned long sum = 0;
    size_t at = HEAD_WORDS;
    for (unsigned i = 0; i < book->at[3] && at + 1 < book->words; i++) {
        sum += book->at[at + 1];
        at += 2 + 2 * (size_t)book->at[at];
    }
    return sum;
}

/* Damages a book in form so that it stays in form but does not agree, or has counts that are summed wrongly only by 16 bits. */
static void damage_counts(struct book *book)
{
    unsigned section;
    size_t at;
    if (percent(40)) {
        if ((at = some_entry(book, 0, 0, &section)) != 0)
            book->at[at + 1] = (uint16_t)ONE_OF(book->at[at + 1] + 1, 65535 - (book->at[2] - book->at[at + 1]), 65535, 65534);
        book->at[2] = (uint16_t)sum_counts(book);
    } else if ((at = some_entry(book, 1, 3, &section)) != 0) {
        if (percent(50))
            remove_entry(book, at, section);
        else
            book->at[at + 1] = (uint16_t)ONE_OF(65535, 65534, 1, book->at[at + 1] + 1);
    }
}

/* Damages a book at one place, structured or not. */
static void damage_book(struct book *book)
{
    unsigned section;
    size_t at;
    unsigned kind = below(100);
    if (kind < 25)
        damage_counts(book);
    else if (kind < 45)
        damage_head(book);
    else if (kind < 80 && (at = some_entry(book, 0, 3, &section)) != 0)
        damage_entry(book, at, section);
    else if (kind < 84 && book->at[1] < book->words)
        book->at[book->at[1] + below((unsigned)book->words - book->at[1])] = 1;
    else if (kind < 88 && book->at[1] < book->words)
        book->at[book->words - 1] = (uint16_t)ONE_OF(1, 256, 65535);
    else {
        at = below(book->at[1] < book->words ? book->at[1] : (unsigned)book->words);
        book->at[at] = (uint16_t)below(65536);
    }
    if (percent(10) && book->at[1] >= HEAD_WORDS && book->at[1] <= book->words)
        damage_book(book);
}

/* Raises the count of an order that a book holds, if it agrees, and with it all counts of its parts, so that word 2 comes to `live`. */
static void raise_counts(struct book *book, unsigned live)
{
    struct order order;
    unsigned step = live - book->at[2];
    copy_book(&spare, book, book->words);
    if (live > 65535 || step > 65535 || plain.check(book->at, book->words).number)
        return;
    if (!taught_order(&order, book) || plain.teach(spare.at, spare.words, order.at, order.words).number)
        return;
    for (size_t i = 0; i < book->words; i++)
        if (spare.at[i] != book->at[i])
            book->at[i] = (uint16_t)(book->at[i] + step);
}

/* Makes the book of the first so many orders of one node. */
static void singles_book(struct book *book, unsigned orders)
{
    const uint16_t head[HEAD_WORDS] = {2, (uint16_t)(HEAD_WORDS + SINGLE_WORDS * orders), (uint16_t)orders,
        (uint16_t)orders, (uint16_t)orders, (uint16_t)orders, 0};
    memset(book->at, 0, sizeof book->at);
    memcpy(book->at, head, sizeof head);
    for (unsigned i = 0; i < 3 * orders; i++) {
        uint16_t *entry = book->at + HEAD_WORDS + 4 * i;
        entry[0] = entry[1] = 1;
        entry[2] = (uint16_t)(1 + i % orders);
    }
}

/* Teaches random orders to a kept book: some, or as many as have room. */
static void fill_slot(struct book *book)
{
    struct order order;
    int full = percent(15);
    unsigned refused = 0;
    unsigned left = full ? 300 : below(book->words > 4000 ? 80 : 12);
    for (; left && refused < 4; left--) {
        fresh_order(&order);
        refused += plain.teach(book->at, book->words, order.at, order.words).number != 0;
    }
}

/* Makes a kept book anew. */
static void renew_slot(unsigned at)
{
    unsigned kind = below(100);
    struct book *book = &slots[at];
    lives[at] = 30 + below(300);
    memset(book->at, 0, sizeof book->at);
    if (kind < 55)
        book->words = kind < 5 ? ONE_OF(7, 18, 19, 20) : 20 + below(300);
    else
        book->words = kind < 80 ? 500 : kind < 94 ? 2000 : kind < 98 ? 8000 : BOOK_WORDS;
    plain.open(book->at, book->words, (uint16_t)(2 + below(5)));
    fill_slot(book);
    if (percent(12))
        raise_counts(book, 65535 - below(3));
}

/* Chooses a kept book, which is made anew at times. */
static struct book *some_slot(void)
{
    unsigned at = below(SLOTS);
    if (lives[at]-- == 0)
        renew_slot(at);
    return &slots[at];
}

/* Copies a kept book to be lent, at times damaged or with another slice, and says whether it may replace the kept one. */
static int some_book(struct book *book, const struct book *kept, unsigned damaged)
{
    unsigned used = kept->at[1];
    size_t words = kept->words;
    if (percent(2))
        words = ONE_OF(0, 1, 6, BOOK_WORDS + 1);
    else if (percent(6))
        words = ONE_OF(used, used - 1, used + 1, HEAD_WORDS, BOOK_WORDS);
    copy_book(book, kept, words);
    if (words < HEAD_WORDS || words < used || words > BOOK_WORDS || !percent(damaged))
        return words == kept->words;
    damage_book(book);
    return percent(10);
}

/* ---- Rule lists ---- */

/* Writes one of an order's parts at this k. */
static void part_of_order(struct order *part, const struct order *order, unsigned k)
{
    part->words = 0;
    put_cut(part, order, 2 * below((unsigned)(order->words / 2)), k - 1, 1);
}

/* Makes the tree of a sound rule: mostly a part of the order, and otherwise a part of another, a cut at any depth, the top, or a part with another code. */
static void some_rule_tree(struct order *tree, const struct order *order, const struct book *kept, unsigned k)
{
    struct order other;
    unsigned kind = below(100);
    if (kind < 55) {
        part_of_order(tree, order, k);
    } else if (kind < 70) {
        if (percent(50) || !taught_order(&other, kept))
            fresh_order(&other);
        part_of_order(tree, &other, k);
    } else if (kind < 88) {
        tree->words = 0;
        put_cut(tree, order, kind < 78 ? 0 : 2 * below((unsigned)(order->words / 2)), kind < 78 ? k - 2 : below(k), 1);
    } else {
        part_of_order(tree, order, k);
        tree->at[2 * below((unsigned)(tree->words / 2))] = (uint16_t)(1 + below(percent(50) ? 3 : 9999));
    }
}

/* Makes the tree of a rule that is none: deeper than k-1 by one or more, past an order's limits, empty, or damaged. */
static void bad_rule_tree(struct order *tree, const struct order *order, unsigned k)
{
    const struct style deep = {k, 1 + below(3), 100, 2, 0, 0, 0}, wide = {k - 1, MOST_CHILDREN + below(2), 0, 2, 0, 0, 0};
    switch (below(5)) {
    case 0: order_grow(tree, &dice, k + 1, &deep); break;
    case 1: order_grow(tree, &dice, ONE_OF(MOST_CHILDREN + 2, MOST_NODES, MOST_NODES + 1, MOST_NODES + 2), &wide); break;
    case 2: tree->words = 0; put_cut(tree, order, 0, k + below(2), 1); break;
    case 3: part_of_order(tree, order, k); damage_order(tree); break;
    default: tree->words = 0; break;
    }
}

/* Adds a rule to the end of a list, whose number of rules stays; an odd word at the tree's end is one too many. */
static void put_rule(struct rules *rules, unsigned image, const struct order *tree)
{
    if (rules->words + 2 + tree->words > RULES_ROOM)
        return;
    rules->at[rules->words++] = (uint16_t)image;
    rules->at[rules->words++] = (uint16_t)(tree->words / 2);
    memcpy(rules->at + rules->words, tree->at, 2 * tree->words);
    rules->words += tree->words;
}

/* Gives the place of a random rule of a sound list, or of the number of rules where it has none. */
static size_t some_rule(const struct rules *rules)
{
    size_t at = rules->at[0] ? 1 : 0;
    for (unsigned skip = rules->at[0] ? below(rules->at[0]) : 0; skip; skip--)
        at += 2 + 2 * (size_t)rules->at[at + 1];
    return at;
}

/* Damages a sound list at one place. */
static void damage_rules(struct rules *rules)
{
    size_t rule = some_rule(rules), nodes = rules->words > rule + 1 ? rule + 1 : rule, any = below((unsigned)rules->words);
    switch (below(10)) {
    case 0: rules->words = 0; break;
    case 1: rules->words--; break;
    case 2: rules->words = any; break;
    case 3: rules->at[rules->words++] = (uint16_t)below(2); break;
    case 4: rules->at[0] = (uint16_t)ONE_OF(rules->at[0] + 1, rules->at[0] - 1, 0, MOST_RULES, MOST_RULES + 1, 256, 65535); break;
    case 5: rules->at[rule] = 0; break;
    case 6: rules->at[nodes] = (uint16_t)ONE_OF(rules->at[nodes] + 1, rules->at[nodes] - 1, 0, MOST_NODES + 1, 32768u + rules->at[nodes], 65535); break;
    case 7: rules->at[any]++; break;
    case 8: rules->at[any]--; break;
    default: rules->at[any] = (uint16_t)(percent(50) ? below(65536) : ONE_OF(0, 1, 9, 9999, 10000, 65535)); break;
    }
}

/* Gives how many rules a list has: mostly few, and at times one more than it may. */
static unsigned some_rules_number(void)
{
    return percent(75) ? 1 + below(6) : percent(70) ? below(MOST_RULES + 1) : ONE_OF(0, 0, MOST_RULES - 1, MOST_RULES, MOST_RULES, MOST_RULES + 1);
}

/* Makes a rule list for an order and a k, with images of a small set; at times one rule is bad, or the list is damaged. An order that is none lends no part. */
static void some_rules(struct rules *rules, const struct order *order, const struct book *kept, unsigned k)
{
    static const unsigned images[] = {7, 65535, 1, 8};
    struct order from = *order, tree;
    unsigned number = some_rules_number(), kinds = ONE_OF(1, 1, 1, 2, 4), first = below(4), bad = percent(8) ? below(number + 1) : number;
    if (plain.subtree(from.at, from.words, 1).words == 0)
        fresh_order(&from);
    rules->words = 1;
    rules->at[0] = (uint16_t)number;
    for (unsigned i = 0; i < number; i++) {
        if (i == bad)
            bad_rule_tree(&tree, &from, k);
        else
            some_rule_tree(&tree, &from, kept, k);
        put_rule(rules, images[(first + below(kinds)) % 4], &tree);
    }
    if (bad == number && percent(15))
        damage_rules(rules);
}

/* ---- Texts and files ---- */

/* Writes the text of a tree, also of one past the limits. */
static void text_of_order(struct text *text, const struct order *order)
{
    unsigned left[ORDER_ROOM];
    unsigned level = 0;
    text->bytes = 0;
    for (size_t at = 0; at + 1 < order->words && text->bytes + 16 < TEXT_ROOM; at += 2) {
        text->bytes += (size_t)snprintf(text->at + text->bytes, 16, "%u %04u\n", level, order->at[at] % 10000u);
        left[level] = order->at[at + 1];
        while (left[level] == 0 && level > 0)
            level--;
        if (left[level]) {
            left[level]--;
            level++;
        }
    }
}

/* Puts bytes in the place of a part of a text. */
static void text_replace(struct text *text, size_t from, size_t to, const char *with, size_t bytes)
{
    if (text->bytes - (to - from) + bytes > TEXT_ROOM)
        return;
    memmove(text->at + from + bytes, text->at + to, text->bytes - to);
    memcpy(text->at + from, with, bytes);
    text->bytes = text->bytes - (to - from) + bytes;
}

/* Damages a random line of a text that is not empty. */
static void damage_line(struct text *text)
{
    static const char *const lines[] = {
        "13 0001\n", "0 1000\n", "1 1000\n", "2 1000\n", "12 1000\n", "13 0000\n", "1 0000\n", "1 00A0\n", "1 001\n", "1 00001\n",
        "1  0001\n", "01 0001\n", "00 0001\n", "100 0001\n", "1 0001\r\n", "\n", "\r\n", "+1 0001\n", " 1 0001\n", "1\t0001\n",
        "1 0001 \n", "a 0001\n", "1 -001\n", "1 0x01\n", "14 0001\n", "10 0001\n", "1 9999\n", "1 0001",
        "1 0001\n1 0001\n1 0001\n1 0001\n1 0001\n1 0001\n1 0001\n1 0001\n"
    };
    size_t from = below((unsigned)text->bytes);
    while (from > 0 && text->at[from - 1] != '\n')
        from--;
    size_t to = from;
    while (to < text->bytes && text->at[to] != '\n')
        to++;
    to += to < text->bytes;
    const char *line = lines[below(sizeof lines / sizeof lines[0])];
    char held[16];
    if (percent(20) && to - from <= sizeof held) {
        memcpy(held, text->at + from, to - from);
        for (unsigned times = 1 + below(9); times; times--)
            text_replace(text, to, to, held, to - from);
    } else {
        text_replace(text, from, percent(70) ? to : from, line, strlen(line));
    }
}

/* Puts a line behind one of level 12, where there is one, that is too deep, misspelt, or both. */
static void deepen(struct text *text)
{
    static const char *const lines[] = {"13 0001\n", "13 0000\n", "13 0001", "13 001\n", "14 0001\n", "12 0001\n"};
    const char *line = lines[below(sizeof lines / sizeof lines[0])];
    for (size_t at = 0; at + 8 <= text->bytes; at++) {
        if ((at == 0 || text->at[at - 1] == '\n') && !memcmp(text->at + at, "12 ", 3) && text->at[at + 7] == '\n') {
            text_replace(text, at + 8, at + 8, line, strlen(line));
            return;
        }
    }
}

/* Damages a text. */
static void damage_text(struct text *text)
{
    static const char bytes[] = "0123456789  \n\n\r\tA+-.";
    size_t at = text->bytes ? below((unsigned)text->bytes) : 0;
    char byte = percent(20) ? (char)below(256) : bytes[below(sizeof bytes)];
    if (text->bytes == 0)
        return;
    switch (below(11)) {
    case 0: text->bytes = 0; break;
    case 1: text->bytes--; break;
    case 2: text->bytes = at; break;
    case 3: text_replace(text, at, at + 1, "", 0); break;
    case 4: text_replace(text, at, at, &byte, 1); break;
    case 5:
    case 6: text->at[at] = byte; break;
    case 7: deepen(text); break;
    default: damage_line(text); break;
    }
}

/* Writes the file of a book that may be damaged or not agree, with as many words as its word 1 says, as far as its slice has them. */
static size_t file_of_book(uint8_t *file, const struct book *book)
{
    size_t words = book->at[1] < book->words ? book->at[1] : book->words;
    memcpy(file, "OFB\0\1", FILE_HEAD);
    for (size_t i = 0; i < words; i++) {
        file[FILE_HEAD + 2 * i] = (uint8_t)(book->at[i] >> 8);
        file[FILE_HEAD + 2 * i + 1] = (uint8_t)book->at[i];
    }
    return FILE_HEAD + 2 * words;
}

/* Damages a file and gives its new length. */
static size_t damage_file(uint8_t *file, size_t bytes)
{
    size_t at = below((unsigned)bytes);
    uint8_t held = file[at];
    uint8_t byte = (uint8_t)below(256);
    switch (below(12)) {
    case 0: return below(FILE_HEAD + 1);
    case 1: return bytes - 1 - below(4) % bytes;
    case 2: return at;
    case 3: file[bytes] = (uint8_t)below(2); return bytes + 1;
    case 4: file[bytes] = 0; file[bytes + 1] = (uint8_t)below(2); return bytes + 2;
    case 5: file[below(3)] = byte; return bytes;
    case 6: file[3 + below(2)] = byte; return bytes;
    case 7: file[3] = 1; file[4] = 0; return bytes;
    case 8: file[below(FILE_HEAD)] ^= (uint8_t)(1u << byte % 8); return bytes;
    case 9: file[at] = file[at ^ 1u]; file[at ^ 1u] = held; return bytes;
    case 10: file[FILE_HEAD + below(2 * HEAD_WORDS)] = byte; return bytes;
    default: file[at] = byte; return bytes;
    }
}

/* ---- Calls ---- */

/* Adds a part to the call and gives where its bytes are to be written. */
static uint8_t *lend(size_t items, size_t width, int writable)
{
    struct lent *lent = &call.lent[call.lents++];
    lent->items = items;
    lent->width = width;
    lent->writable = writable;
    lent->shift = below(SHIFTS);
    lent->guard[0] = (uint8_t)ONE_OF(0, 1, 170, 255);
    lent->guard[1] = (uint8_t)(lent->guard[0] + 1 + below(255));
    return lent->before;
}

/* Adds a book to the call. */
static void lend_book(const struct book *book, int writable)
{
    memcpy(lend(book->words, 2, writable), book->at, 2 * book->words);
}

/* Adds an order to the call. */
static void lend_order(const struct order *order)
{
    memcpy(lend(order->words, 2, 0), order->at, 2 * order->words);
}

/* Adds a rule list to the call. */
static void lend_rules(const struct rules *rules)
{
    memcpy(lend(rules->words, 2, 0), rules->at, 2 * rules->words);
}

/* Adds a writable part in which anything may stand. */
static void lend_output(size_t items, size_t width)
{
    uint8_t *at = lend(items, width, 1);
    uint64_t word = percent(30) ? 0 : dice_next(&dice);
    for (size_t i = 0; i < items * width; i += sizeof word)
        memcpy(at + i, &word, sizeof word);
}

/* Gives a length for an output that needs so many: too short, just enough, or more. */
static size_t output_length(size_t need, size_t most)
{
    size_t length = percent(30) ? need : percent(40) ? need + 1 + below(20) : percent(60) && need ? need - 1 : below((unsigned)need + 20);
    return length < most ? length : most;
}

/* Gives a length for a book's slice that needs so many words. */
static size_t slice_length(size_t need)
{
    if (percent(8))
        return ONE_OF(0, 6, 7, BOOK_WORDS, BOOK_WORDS + 1);
    return output_length(need, BOOK_WORDS + 1);
}

/* Makes a call of open. */
static void make_open(void)
{
    lend_output(percent(50) ? below(400) : ONE_OF(0, 1, 6, 7, 8, BOOK_WORDS - 1, BOOK_WORDS, BOOK_WORDS + 1), 2);
    call.k = (uint16_t)(percent(90) ? below(9) : ONE_OF(65535, 258, 32770, 9));
}

/* Sets the slice of a book to be taught an order to what this needs, or to one word less or more. */
static void fit_teaching(struct book *book, const struct order *order)
{
    size_t had = book->words;
    copy_book(&spare, book, BOOK_WORDS);
    if (plain.teach(spare.at, BOOK_WORDS, order->at, order->words).number)
        return;
    book->words = spare.at[1] - 1u + below(3);
    if (book->words > BOOK_WORDS)
        book->words = BOOK_WORDS;
    if (book->words > had)
        memset(book->at + had, 0, 2 * (book->words - had));
}

/* Takes a random part out of a book, which may then lack one of the order to be withdrawn or judged. */
static void lose_part(struct book *book)
{
    unsigned section;
    size_t at = some_entry(book, 1, 3, &section);
    if (at)
        remove_entry(book, at, section);
}

/* Makes a call of teach, withdraw or judge. */
static void make_order_call(void)
{
    static struct book book;
    struct order order;
    struct book *slot = some_slot();
    int keep = some_book(&book, slot, call.function == WITHDRAW ? 20 : 15);
    some_order(&order, slot, call.function == TEACH ? 20 : 60);
    if (call.function == TEACH && book.words >= HEAD_WORDS && book.words <= BOOK_WORDS && percent(15)) {
        fit_teaching(&book, &order);
        keep = 0;
    }
    unsigned losing = call.function == WITHDRAW ? 6 : call.function == JUDGE ? 25 : 0;
    if (book.words >= HEAD_WORDS && losing && percent(losing)) {
        lose_part(&book);
        keep = 0;
    }
    lend_book(&book, call.function != JUDGE);
    lend_order(&order);
    call.keep = keep && call.function != JUDGE ? slot : NULL;
}

/* Makes a call of choose: mostly of an order that passes, since the rules are looked at only then. */
static void make_choose(void)
{
    static struct book book;
    static struct rules rules;
    struct order order;
    const struct book *slot = some_slot();
    some_book(&book, slot, 8);
    if (percent(40) || !taught_order(&order, slot))
        some_order(&order, slot, 60);
    if (book.words >= HEAD_WORDS && percent(8))
        lose_part(&book);
    some_rules(&rules, &order, slot, slot->at[0]);
    lend_book(&book, 0);
    lend_order(&order);
    lend_rules(&rules);
}

/* Finds another kept book that looks as deep as this one, or gives NULL where there is none. */
static const struct book *fellow(const struct book *kept)
{
    unsigned start = below(SLOTS);
    for (unsigned i = 0; i < SLOTS; i++) {
        const struct book *slot = &slots[(start + i) % SLOTS];
        if (slot != kept && slot->at[0] == kept->at[0])
            return slot;
    }
    return NULL;
}

/* Makes a book that looks as deep as a kept one, and teaches it orders that this holds, orders like those, and new ones; at times none. */
static void relative(struct book *book, const struct book *kept)
{
    struct order order;
    book->words = ONE_OF(HEAD_WORDS, 40, 120, 300, 300, 2000);
    plain.open(book->at, book->words, kept->at[0]);
    for (unsigned left = below(10); left; left--) {
        some_order(&order, kept, ONE_OF(0, 20, 60));
        plain.teach(book->at, book->words, order.at, order.words);
    }
}

/* Makes a book to be joined to a kept one: mostly one that looks as deep, which may be its copy, and at times any kept one. */
static void other_book(struct book *other, const struct book *kept)
{
    unsigned kind = below(100);
    const struct book *from = kind < 10 ? &slots[below(SLOTS)] : kind < 20 ? kept : kind < 60 ? fellow(kept) : NULL;
    if (from)
        copy_book(other, from, from->words);
    else
        relative(other, kept);
}

/* Sets the slice of a book to what joining the other needs, to one word more or less, or to a small entry less, as far as it is used. */
static void fit_joining(struct book *book, const struct book *other)
{
    size_t had = book->words;
    copy_book(&spare, book, BOOK_WORDS);
    if (plain.join(spare.at, BOOK_WORDS, other->at, other->words).number)
        return;
    book->words = spare.at[1] + 1u - ONE_OF(0, 1, 1, 2, 2, 5, 7, 9);
    if (book->words < book->at[1])
        book->words = book->at[1];
    if (book->words > BOOK_WORDS)
        book->words = BOOK_WORDS;
    if (book->words > had)
        memset(book->at + had, 0, 2 * (book->words - had));
}

/*
 * Makes two books to be joined: mostly a copy of a kept one and one for it, at times books of orders of one node, the second the largest.
 * At times they get such counts that their teachings together come to about the most.
 */
static void two_books(struct book *first, struct book *second, const struct book *kept)
{
    unsigned most = (BOOK_WORDS - HEAD_WORDS) / SINGLE_WORDS;
    if (below(1000) < 6) {
        singles_book(first, percent(30) ? below(2) * most : below(most + 1));
        singles_book(second, most);
        first->words = second->words = BOOK_WORDS;
    } else {
        copy_book(first, kept, kept->words);
        other_book(second, kept);
    }
    if (percent(15)) {
        raise_counts(first, below(65536));
        raise_counts(second, 65536u - first->at[2] - below(3));
    }
}

/* Makes a call of join. */
static void make_join(void)
{
    static struct book first, second, book, other;
    struct book *slot = some_slot();
    int keep = percent(30);
    two_books(&first, &second, slot);
    if (percent(30)) {
        fit_joining(&first, &second);
        keep = 0;
    }
    keep = some_book(&book, &first, 15) && keep;
    some_book(&other, &second, 15);
    lend_book(&book, 1);
    lend_book(&other, 0);
    call.keep = keep ? slot : NULL;
}

/* Makes a book that a file call starts from: a kept one, or at times the largest of orders of one node or one order more. */
static void file_book(struct book *book, unsigned damaged)
{
    unsigned most = (BOOK_WORDS - HEAD_WORDS) / SINGLE_WORDS;
    if (below(1000) < 6) {
        singles_book(book, most + (unsigned)percent(50));
        book->words = book->at[1] > BOOK_WORDS ? book->at[1] : BOOK_WORDS;
    } else {
        some_book(book, some_slot(), damaged);
    }
}

/* Makes a call of check or write_file. */
static void make_book_call(void)
{
    static struct book book;
    file_book(&book, 30);
    lend_book(&book, 0);
    if (call.function == WRITE_FILE)
        lend_output(output_length(FILE_HEAD + 2 * (size_t)book.at[1], FILE_ROOM), 1);
}

/* Makes a call of read_file. */
static void make_read_file(void)
{
    static struct book book;
    static uint8_t file[FILE_ROOM];
    file_book(&book, 25);
    size_t bytes = file_of_book(file, &book);
    if (percent(30))
        bytes = damage_file(file, bytes);
    memcpy(lend(bytes, 1, 0), file, bytes);
    lend_output(slice_length(book.at[1]), 2);
}

/* Makes a call of read_text. */
static void make_read_text(void)
{
    struct order order;
    struct text text;
    if (percent(25))
        unlimited_order(&order);
    else
        fresh_order(&order);
    text_of_order(&text, &order);
    while (percent(45))
        damage_text(&text);
    memcpy(lend(text.bytes, 1, 0), text.at, text.bytes);
    lend_output(output_length(order.words, 400), 2);
}

/* Makes a call of write_text or subtree. */
static void make_order_alone(void)
{
    struct order order;
    struct text text;
    some_order(&order, some_slot(), 40);
    if (percent(15))
        damage_order(&order);
    lend_order(&order);
    if (percent(80))
        call.line = 1 + below((unsigned)order.words / 2 + 1);
    else
        call.line = percent(30) ? 0 : percent(50) ? SIZE_MAX - below(3) : SIZE_MAX / 2 + 1 + below(5);
    if (call.function == SUBTREE)
        return;
    text.bytes = 0;
    if (plain.subtree(order.at, order.words, 1).words)
        text_of_order(&text, &order);
    lend_output(output_length(text.bytes, TEXT_ROOM), 1);
}

/* Chooses a function by its share and makes a call of it. */
static void make_call(void)
{
    unsigned throw = below(100), function = 0;
    while (throw >= functions[function].share)
        throw -= functions[function++].share;
    call.function = (enum function)function;
    call.lents = 0;
    call.keep = NULL;
    call.k = 0;
    call.line = 0;
    switch (call.function) {
    case OPEN: make_open(); break;
    case TEACH:
    case WITHDRAW:
    case JUDGE: make_order_call(); break;
    case CHOOSE: make_choose(); break;
    case JOIN: make_join(); break;
    case CHECK:
    case WRITE_FILE: make_book_call(); break;
    case READ_FILE: make_read_file(); break;
    case READ_TEXT: make_read_text(); break;
    default: make_order_alone(); break;
    }
}

/* ---- Both implementations ---- */

/* Gives where a lent part stands for one of the implementations. */
static uint8_t *place(struct lent *lent, unsigned side)
{
    return lent->arena[side] + GUARD + lent->shift * lent->width;
}

/* Lays a lent part out between its guards. */
static void lay_out(struct lent *lent, unsigned side)
{
    uint8_t *at = place(lent, side);
    size_t bytes = lent->items * lent->width;
    memset(lent->arena[side], lent->guard[side], (size_t)(at - lent->arena[side]));
    memcpy(at, lent->before, bytes);
    memset(at + bytes, lent->guard[side], GUARD);
}

/* Says whether the guards of a lent part are as they were. */
static int guarded(struct lent *lent, unsigned side)
{
    uint8_t *at = place(lent, side);
    for (uint8_t *p = lent->arena[side]; p < at; p++)
        if (*p != lent->guard[side])
            return 0;
    at += lent->items * lent->width;
    for (unsigned i = 0; i < GUARD; i++)
        if (at[i] != lent->guard[side])
            return 0;
    return 1;
}

/* Makes the call with one implementation. */
static struct outcome perform(const struct implementation *which, unsigned side)
{
    void *a = place(&call.lent[0], side), *b = place(&call.lent[1], side), *c = place(&call.lent[2], side);
    size_t m = call.lent[0].items, n = call.lent[1].items, o = call.lent[2].items;
    ofb_answer answer = {0, 0, 0};
    ofb_judged judged = {0, 0, 0, 0, 0, 0};
    ofb_image image = {0, 0, 0};
    ofb_part part = {0, 0};
    switch (call.function) {
    case OPEN: answer = which->open(a, m, call.k); break;
    case TEACH: answer = which->teach(a, m, b, n); break;
    case WITHDRAW: answer = which->withdraw(a, m, b, n); break;
    case JOIN: answer = which->join(a, m, b, n); break;
    case JUDGE: judged = which->judge(a, m, b, n); break;
    case CHOOSE: image = which->choose(a, m, b, n, c, o); break;
    case CHECK: answer = which->check(a, m); break;
    case WRITE_FILE: answer = which->write_file(a, m, b, n); break;
    case READ_FILE: answer = which->read_file(a, m, b, n); break;
    case READ_TEXT: answer = which->read_text(a, m, b, n); break;
    case WRITE_TEXT: answer = which->write_text(a, m, b, n); break;
    default: part = which->subtree(a, m, call.line); break;
    }
    if (call.function == SUBTREE)
        return (struct outcome){.number = part.words == 0, .written = part.words, .start = part.start};
    if (call.function == JUDGE)
        return (struct outcome){.number = judged.number, .line = judged.line, .below = judged.below, .there = judged.there,
            .place_below = judged.place_below, .place_above = judged.place_above};
    if (call.function == CHOOSE)
        return (struct outcome){.number = image.number, .line = image.line, .image = image.image};
    return (struct outcome){.number = answer.number, .line = answer.line, .written = answer.written};
}

/* Counts a difference, and tells it with all that is needed to see it again. */
static void tell(const char *what, const struct outcome *outcome)
{
    if (differences++ >= TOLD)
        return;
    printf("difference: %s: %s, seed %llu, call %lu, lent", what, functions[call.function].name, seed, call_number);
    for (unsigned i = 0; i < call.lents; i++)
        printf(" %zu %s%s", call.lent[i].items, call.lent[i].width == 2 ? "words" : "bytes", i + 1 < call.lents ? " and" : "");
    if (call.function == OPEN)
        printf(", k %u", call.k);
    if (call.function == SUBTREE)
        printf(", line %zu", call.line);
    printf("\n");
    for (unsigned side = 0; side < 2; side++)
        printf("    %-8s number %u, line %u, written %u, start %u, image %u, below %u, there %u, places %u and %u\n",
            side ? plain.name : library.name, outcome[side].number, outcome[side].line, outcome[side].written, outcome[side].start,
            outcome[side].image, outcome[side].below, outcome[side].there, outcome[side].place_below, outcome[side].place_above);
    fflush(stdout);
}

/* Ends the program where a call was ended by a signal. */
static void on_signal(int number)
{
    const struct outcome none[2] = {{0}, {0}};
    unsigned long before = differences;
    differences = 0;
    tell("ended by a signal, with no answers", none);
    printf("%lu difference%s, ended by signal %d\n", before + 1, before ? "s" : "", number);
    fflush(stdout);
    _Exit(1);
}

/* Has the signals of a call gone wrong told, also where it used up the stack. */
static void watch_signals(void)
{
    static const int signals[] = {SIGSEGV, SIGBUS, SIGILL, SIGTRAP, SIGFPE, SIGABRT};
    static char room[SIGNAL_STACK];
    const stack_t stack = {.ss_sp = room, .ss_size = sizeof room};
    struct sigaction action = {.sa_handler = on_signal, .sa_flags = SA_ONSTACK};
    sigaltstack(&stack, NULL);
    for (unsigned i = 0; i < sizeof signals / sizeof signals[0]; i++)
        sigaction(signals[i], &action, NULL);
}

/* Looks at what one implementation left in a lent part; gives what is wrong, or NULL. */
static const char *look_at(struct lent *lent, unsigned side, const struct outcome *outcome)
{
    size_t bytes = lent->items * lent->width;
    if (!guarded(lent, side))
        return side ? "C wrote outside of what is lent" : "the library wrote outside of what is lent";
    if ((!lent->writable || outcome->number) && memcmp(place(lent, side), lent->before, bytes))
        return side ? "C changed what has to stay" : "the library changed what has to stay";
    return NULL;
}

/* Looks at one implementation's answer by itself; gives what is wrong, or NULL. */
static const char *look_at_answer(const struct outcome *outcome, unsigned side)
{
    if (outcome->number >= NUMBERS || !(functions[call.function].numbers >> outcome->number & 1u))
        return side ? "C answers a number that the function does not have" : "the library answers a number that the function does not have";
    if (outcome->number && outcome->written)
        return side ? "C refuses and says that it wrote" : "the library refuses and says that it wrote";
    if (outcome->there || (outcome->number < VERDICTS && (outcome->below || outcome->place_below || outcome->place_above)))
        return side ? "C tells neighbours where it may not" : "the library tells neighbours where it may not";
    if (call.function == CHOOSE && (outcome->number ? outcome->image != 0 : outcome->image - 1 >= 65535))
        return side ? "C names an image where it may not, or none" : "the library names an image where it may not, or none";
    return NULL;
}

/* Compares what both answered and left; gives what is wrong, or NULL. */
static const char *find_fault(const struct outcome *outcome)
{
    const char *fault = NULL;
    for (unsigned side = 0; side < 2 && !fault; side++)
        fault = look_at_answer(&outcome[side], side);
    if (!fault && memcmp(&outcome[0], &outcome[1], sizeof outcome[0]))
        fault = "the answers differ";
    for (unsigned i = 0; i < call.lents && !fault; i++) {
        struct lent *lent = &call.lent[i];
        for (unsigned side = 0; side < 2 && !fault; side++)
            fault = look_at(lent, side, &outcome[side]);
        if (!fault && memcmp(place(lent, 0), place(lent, 1), lent->items * lent->width))
            fault = "what they left in the lent parts differs";
    }
    return fault;
}

/* Makes one call with both and compares. */
static void compare_call(void)
{
    struct outcome outcome[2];
    make_call();
    for (unsigned side = 0; side < 2; side++)
        for (unsigned i = 0; i < call.lents; i++)
            lay_out(&call.lent[i], side);
    outcome[0] = perform(&library, 0);
    outcome[1] = perform(&plain, 1);
    const char *fault = find_fault(outcome);
    if (fault)
        tell(fault, outcome);
    else
        counts[call.function][outcome[0].number]++;
    if (call.keep && outcome[1].number == 0 && !fault) {
        call.keep->words = call.lent[0].items;
        memcpy(call.keep->at, place(&call.lent[0], 1), 2 * call.keep->words);
    }
}

/* Says whether some function may answer a number. */
static int may_be_answered(unsigned number)
{
    for (unsigned f = 0; f < FUNCTIONS; f++)
        if (functions[f].numbers >> number & 1u)
            return 1;
    return 0;
}

/* Prints how often each function was called and gave each number, and which it could have given and did not. */
static unsigned print_counts(void)
{
    printf("%-10s %7s", "function", "calls");
    for (unsigned number = 0; number < NUMBERS; number++)
        if (may_be_answered(number))
            printf(" %6u", number);
    printf("\n");
    unsigned missed = 0;
    for (unsigned f = 0; f < FUNCTIONS; f++) {
        unsigned long calls = 0;
        for (unsigned number = 0; number < NUMBERS; number++)
            calls += counts[f][number];
        printf("%-10s %7lu", functions[f].name, calls);
        for (unsigned number = 0; number < NUMBERS; number++) {
            if (functions[f].numbers >> number & 1u)
                printf(" %6lu", counts[f][number]);
            else if (may_be_answered(number))
                printf(" %6s", "");
            missed += (functions[f].numbers >> number & 1u) && counts[f][number] == 0;
        }
        printf("\n");
    }
    printf("For subtree, 0 stands for a part and 1 for an empty one. Calls with a difference are not counted above.\n");
    if (missed)
        printf("%u numbers that a function can answer were not met\n", missed);
    return missed;
}

/* Reads the arguments, makes the calls and says whether there was a difference. So many calls as by default have to meet every number. */
int main(int argc, char **argv)
{
    unsigned long calls = argc > 1 ? strtoul(argv[1], NULL, 10) : DEFAULT_CALLS;
    seed = argc > 2 ? strtoull(argv[2], NULL, 10) : 1;
    dice.state = seed;
    watch_signals();
    for (unsigned i = 0; i < SLOTS; i++)
        renew_slot(i);
    for (call_number = 1; call_number <= calls; call_number++)
        compare_call();
    printf("%lu calls, seed %llu\n", calls, seed);
    unsigned missed = print_counts();
    if (differences)
        printf("%lu difference%s\n", differences, differences == 1 ? "" : "s");
    else
        printf("no difference\n");
    return differences != 0 || (missed && calls >= DEFAULT_CALLS);
}
