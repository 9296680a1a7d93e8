/*
 * A plain C implementation of the twelve functions of ofb.h, written from the rules alone, for comparison by bench/run in answers and speed.
 * It is not part of the product. It keeps nothing between calls and takes no heap; reading a file takes the most stack, some 57 KiB.
 *
 * Every call on a book first goes through it once to see that it is in form and where its sections start. Teaching and withdrawing list
 * the order's distinct parts in the order in which the book holds entries, find the place of each in one merge, and only then change the
 * book, in one sweep. Joining does the same with the entries of the other book.
 */
#include "plain.h"

#include <stdbool.h>
#include <string.h>

enum {
    LEAST_K = 2,
    MOST_K = 6,
    HEAD = 7,                                   /* words before the first entry */
    MOST_WORDS = 16384,                         /* of a book's slice */
    MOST_ENTRIES = (MOST_WORDS - HEAD) / 4,     /* an entry has four words or more */
    MOST_NODES = 64,
    MOST_ORDER = 2 * MOST_NODES,                /* words of an order */
    MOST_DEPTH = 12,
    MOST_KIDS = 8,
    MOST_CODE = 9999,
    MOST_COUNT = 65535,
    MOST_PARTS = MOST_NODES + 2,                /* the order itself, its top, and one part for each line */
    MOST_CUTS = (MOST_K + 1) * MOST_ORDER,      /* a node is in the top and in the cuts of itself and k-1 nodes above it */
    MOST_RULES = 64,                            /* of a rule list */
    FILE_HEAD = 5,                              /* bytes before the stored words */
    NO_TREE = 255                               /* in the place of a depth */
};

/* The sections in the order in which the book holds them, and their number. */
enum { T, R, L, P, SECTIONS };

/* What is known of a book in form: k, words used, and where each section starts; the last start is where P ends. */
typedef struct { unsigned k, used, start[SECTIONS + 1]; } shape;

/* An order laid out: for each node its depth, the depth of its subtree, and the node that follows its subtree. */
typedef struct {
    const uint16_t *words;
    unsigned nodes;
    uint8_t depth[MOST_NODES], height[MOST_NODES], end[MOST_NODES];
} tree;

/* A part of an order, the section it belongs in, and the place of the first entry there that is not less; known if that entry is it. */
typedef struct { const uint16_t *words; uint16_t nodes, place; uint8_t section; bool known; } part;

/* All distinct parts of an order as the book holds them: by section, ascending in each. Cuts are spelt out in a place of their own. */
typedef struct { unsigned number; part item[MOST_PARTS]; uint16_t cuts[MOST_CUTS]; } parts;

/* For the entries of R, L and P: where each section begins, and for each its place, its right count, and the last order that had it. */
typedef struct { unsigned first[SECTIONS + 1]; uint16_t place[MOST_ENTRIES], tally[MOST_ENTRIES], last[MOST_ENTRIES]; } ledger;

/* An entry of another book: its place there, and the place of the book's first entry that is not less; known if that has the same tree. */
typedef struct { uint16_t from, place; bool known; } addend;

/* All entries of another book, front to end, and what the book lacks of them: how many words, and how many entries in each section. */
typedef struct { unsigned number, more, lacking[SECTIONS]; addend item[MOST_ENTRIES]; } addends;

/* Puts an answer together. */
static ofb_answer answer(unsigned number, unsigned line, size_t written)
{
    ofb_answer a = { (uint16_t)number, (uint16_t)line, (uint32_t)written };
    return a;
}

/* Whether a book's slice has a length that is allowed. */
static bool size_allowed(size_t words)
{
    return words >= HEAD && words <= MOST_WORDS;
}

/* Compares two trees word by word from the first: negative, 0 or positive. No tree begins with the words of another. */
static int compare(const uint16_t *a, unsigned a_nodes, const uint16_t *b, unsigned b_nodes)
{
    unsigned n = 2 * (a_nodes < b_nodes ? a_nodes : b_nodes);
    for (unsigned i = 0; i < n; i++)
        if (a[i] != b[i])
            return a[i] < b[i] ? -1 : 1;
    return 0;
}

/* Whether all words are 0. */
static bool all_zero(const uint16_t *w, size_t n)
{
    size_t i = 0;
    for (; i + 16 <= n; i += 16) {
        uint64_t four[4];
        memcpy(four, w + i, sizeof four);
        if ((four[0] | four[1] | four[2] | four[3]) != 0)
            return false;
    }
    for (; i < n; i++)
        if (w[i] != 0)
            return false;
    return true;
}

/* The depth of the tree that these nodes are, or NO_TREE if they are not exactly one or go deeper than `most`, which is at most 12. */
static unsigned tree_depth(const uint16_t *w, unsigned nodes, unsigned most)
{
    uint8_t left[MOST_DEPTH];   /* for each level above: how many siblings are still to come there */
    unsigned level = 0, deepest = 0, to_come = 1;
    for (unsigned i = 0; i < nodes; i++) {
        unsigned code = w[2 * i], kids = w[2 * i + 1];
        if (code - 1 >= MOST_CODE || kids > MOST_KIDS)
            return NO_TREE;
        to_come--;
        if (kids != 0) {
            if (level == most)
                return NO_TREE;
            left[level++] = (uint8_t)to_come;
            to_come = kids;
            if (level > deepest)
                deepest = level;
        }
        while (to_come == 0) {
            if (level == 0)
                return i + 1 == nodes ? deepest : NO_TREE;
            to_come = left[--level];
        }
    }
    return NO_TREE;
}

/* Goes through a section's entries from `at`: where they end, or 0 if they are not in form. `sum` is left with the sum of their counts. */
static unsigned section_end(const uint16_t *book, unsigned at, unsigned used, unsigned entries, unsigned least, unsigned most,
                            unsigned *sum)
{
    unsigned before = 0, total = 0;
    for (; entries > 0; entries--) {
        if (used - at < 4)
            return 0;
        unsigned nodes = book[at], count = book[at + 1];
        if (nodes == 0 || nodes > MOST_NODES || count == 0 || 2 * nodes > used - at - 2)
            return 0;
        unsigned depth = tree_depth(book + at + 2, nodes, most);
        if (depth == NO_TREE || depth < least)
            return 0;
        if (before != 0 && compare(book + before + 2, book[before], book + at + 2, nodes) >= 0)
            return 0;
        total += count;
        before = at;
        at += 2 + 2 * nodes;
    }
    *sum = total;
    return at;
}

/* Whether a slice of allowed length is a book in form, and its shape if so. */
static bool in_form(const uint16_t *book, size_t words, shape *s)
{
    unsigned k = book[0], used = book[1], at = HEAD;
    if (k < LEAST_K || k > MOST_K || used < HEAD || used > words)
        return false;
    for (unsigned section = T; section < SECTIONS; section++) {
        unsigned most = section == T ? MOST_DEPTH : section == P ? k - 1 : k - 2, sum = 0;
        s->start[section] = at;
        at = section_end(book, at, used, book[3 + section], section == P ? most : 0, most, &sum);
        if (at == 0 || (section == T && sum != book[2]))
            return false;
    }
    s->start[SECTIONS] = at;
    s->k = k;
    s->used = used;
    return at == used && all_zero(book + used, words - used);
}

/* Lays out 1 to 64 nodes: false if they are not exactly one tree. Ends and heights are found from the last node back, then depths. */
static bool lay_out(const uint16_t *w, unsigned nodes, tree *t)
{
    t->words = w;
    t->nodes = nodes;
    for (unsigned i = nodes; i-- > 0;) {
        unsigned code = w[2 * i], kids = w[2 * i + 1], child = i + 1, height = 0;
        if (code - 1 >= MOST_CODE || kids > MOST_KIDS)
            return false;
        for (; kids > 0; kids--) {
            if (child >= nodes)
                return false;
            if (t->height[child] >= height)
                height = t->height[child] + 1u;
            child = t->end[child];
        }
        t->height[i] = (uint8_t)height;
        t->end[i] = (uint8_t)child;
    }
    if (t->end[0] != nodes)
        return false;
    t->depth[0] = 0;
    for (unsigned i = 0; i < nodes; i++)
        for (unsigned child = i + 1; child < t->end[i]; child = t->end[child])
            t->depth[child] = (uint8_t)(t->depth[i] + 1);
    return true;
}

/* Lays out a lent order: 0, or the 1 or 2 it is refused with. */
static unsigned read_order(const uint16_t *order, size_t words, tree *t)
{
    if (words == 0 || words % 2 != 0)
        return OFB_NO_ORDER;
    if (words > MOST_ORDER)
        return OFB_TOO_LARGE;
    if (!lay_out(order, (unsigned)words / 2, t))
        return OFB_NO_ORDER;
    return t->height[0] > MOST_DEPTH ? OFB_TOO_LARGE : OFB_DONE;
}

/* Spells out the subtree at a node, cut at depth d of it, and gives its number of nodes. */
static unsigned cut(const tree *t, unsigned node, unsigned d, uint16_t *out)
{
    unsigned lowest = t->depth[node] + d, n = 0;
    for (unsigned i = node; i < t->end[node]; n++) {
        out[2 * n] = t->words[2 * i];
        if (t->depth[i] == lowest) {
            out[2 * n + 1] = 0;
            i = t->end[i];
        } else {
            out[2 * n + 1] = t->words[2 * i + 1];
            i++;
        }
    }
    return n;
}

/* The low or middle part of a node, without a place. A middle part's words are spelt out in `room`, a low part's are the order's own. */
static part part_of(const tree *t, unsigned node, unsigned k, uint16_t *room)
{
    part p = { t->words + 2 * node, (uint16_t)(t->end[node] - node), 0, L, false };
    if (t->height[node] >= k - 1) {
        p.words = room;
        p.nodes = (uint16_t)cut(t, node, k - 1, room);
        p.section = P;
    }
    return p;
}

/* The place, from `at` to where the section stops, of the first entry that is not less than the part, and whether it is the part. */
static unsigned seek(const uint16_t *book, unsigned at, unsigned stop, const uint16_t *words, unsigned nodes, bool *known)
{
    int order = 1;
    while (at < stop && (order = compare(book + at + 2, book[at], words, nodes)) < 0)
        at += 2 + 2u * book[at];
    *known = at < stop && order == 0;
    return at;
}

/* Puts a part in its place among those from `first` on, which ascend: false if it is there already. */
static bool insert(parts *all, unsigned first, const part *p)
{
    unsigned low = first, high = all->number;
    while (low < high) {
        unsigned middle = (low + high) / 2;
        int order = compare(all->item[middle].words, all->item[middle].nodes, p->words, p->nodes);
        if (order == 0)
            return false;
        if (order < 0)
            low = middle + 1;
        else
            high = middle;
    }
    memmove(&all->item[low + 1], &all->item[low], (all->number - low) * sizeof *p);
    all->item[low] = *p;
    all->number++;
    return true;
}

/* Lists the order itself, its top, its distinct low parts and its distinct middle parts. */
static void list_parts(const tree *t, unsigned k, parts *all)
{
    uint16_t *room = all->cuts;
    part whole = { t->words, (uint16_t)t->nodes, 0, T, false }, top = { room, (uint16_t)cut(t, 0, k - 2, room), 0, R, false };
    room += 2 * top.nodes;
    all->item[0] = whole;
    all->item[1] = top;
    all->number = 2;
    for (unsigned node = 0; node < t->nodes; node++)
        if (t->height[node] < k - 1) {
            part low = part_of(t, node, k, room);
            insert(all, 2, &low);
        }
    unsigned first = all->number;
    for (unsigned node = 0; node < t->nodes; node++)
        if (t->height[node] >= k - 1) {
            part middle = part_of(t, node, k, room);
            if (insert(all, first, &middle))
                room += 2 * middle.nodes;
        }
}

/* Finds the places of all parts in the book, each section being gone through once. */
static void find_places(const uint16_t *book, const shape *s, parts *all)
{
    unsigned at = 0;
    for (unsigned i = 0; i < all->number; i++) {
        part *p = &all->item[i];
        if (at < s->start[p->section])
            at = s->start[p->section];
        at = seek(book, at, s->start[p->section + 1], p->words, p->nodes, &p->known);
        p->place = (uint16_t)at;
    }
}

/* What teaching and withdrawing begin with: 0 and the order's parts with their places, or the 4, 5, 1 or 2 that refuses. */
static unsigned prepare(const uint16_t *book, size_t words, const uint16_t *order, size_t order_words, shape *s, parts *all)
{
    tree t;
    if (!size_allowed(words))
        return OFB_BOOK_SIZE;
    if (!in_form(book, words, s))
        return OFB_NOT_IN_FORM;
    unsigned number = read_order(order, order_words, &t);
    if (number != OFB_DONE)
        return number;
    list_parts(&t, s->k, all);
    find_places(book, s, all);
    return OFB_DONE;
}

/* Raises the counts of the known parts and enters the others, which take `more` words; from the end back, so each word moves once. */
static void enter_parts(uint16_t *book, unsigned used, unsigned more, const parts *all)
{
    unsigned from = used, to = used + more;
    for (unsigned i = all->number; i-- > 0;) {
        const part *p = &all->item[i];
        if (p->known) {
            book[p->place + 1]++;
            continue;
        }
        unsigned n = from - p->place;
        from -= n;
        to -= n;
        memmove(book + to, book + from, n * sizeof *book);
        to -= 2 + 2u * p->nodes;
        book[to] = p->nodes;
        book[to + 1] = 1;
        memcpy(book + to + 2, p->words, 2 * p->nodes * sizeof *book);
        book[3 + p->section]++;
    }
    book[1] = (uint16_t)(used + more);
    book[2]++;
}

/* Lowers the counts of the parts and takes out those that come to 0; from the front to the end, so each word moves once. */
static void take_parts(uint16_t *book, unsigned used, const parts *all)
{
    unsigned from = HEAD, to = HEAD;
    for (unsigned i = 0; i < all->number; i++) {
        const part *p = &all->item[i];
        if (book[p->place + 1] > 1) {
            book[p->place + 1]--;
            continue;
        }
        unsigned n = p->place - from;
        if (to != from)
            memmove(book + to, book + from, n * sizeof *book);
        to += n;
        from = p->place + 2 + 2u * p->nodes;
        book[3 + p->section]--;
    }
    if (to != from) {
        memmove(book + to, book + from, (used - from) * sizeof *book);
        memset(book + to + (used - from), 0, (from - to) * sizeof *book);
    }
    book[1] = (uint16_t)(to + used - from);
    book[2]--;
}

/* Makes the ledger of a book in form: the entries of R, L and P in the order of the book, none tallied. */
static void open_ledger(const uint16_t *book, const shape *s, ledger *g)
{
    unsigned n = 0;
    for (unsigned section = R; section < SECTIONS; section++) {
        g->first[section] = n;
        for (unsigned at = s->start[section]; at < s->start[section + 1]; at += 2 + 2u * book[at])
            g->place[n++] = (uint16_t)at;
    }
    g->first[SECTIONS] = n;
    memset(g->tally, 0, n * sizeof g->tally[0]);
    memset(g->last, 0, n * sizeof g->last[0]);
}

/* Tallies a part of taught order number `order`, counted from 1, once for that order: false if the book lacks the part. */
static bool tally_part(const uint16_t *book, ledger *g, unsigned order, unsigned count, const part *p)
{
    unsigned low = g->first[p->section], high = g->first[p->section + 1];
    while (low < high) {
        unsigned middle = (low + high) / 2, at = g->place[middle];
        int c = compare(book + at + 2, book[at], p->words, p->nodes);
        if (c == 0) {
            if (g->last[middle] != order) {
                g->last[middle] = (uint16_t)order;
                g->tally[middle] = (uint16_t)(g->tally[middle] + count);    /* at most word 2 of the book */
            }
            return true;
        }
        if (c < 0)
            low = middle + 1;
        else
            high = middle;
    }
    return false;
}

/* Whether a book in form agrees with itself: the parts of its taught orders, with their counts, are those it holds. */
static bool agrees(const uint16_t *book, const shape *s)
{
    ledger g;
    tree t;
    uint16_t room[MOST_ORDER];
    unsigned order = 0;
    open_ledger(book, s, &g);
    for (unsigned at = s->start[T]; at < s->start[R]; at += 2 + 2u * book[at]) {
        unsigned count = book[at + 1];
        order++;
        if (!lay_out(book + at + 2, book[at], &t))
            return false;
        part p = { room, (uint16_t)cut(&t, 0, s->k - 2, room), 0, R, false };
        if (!tally_part(book, &g, order, count, &p))
            return false;
        for (unsigned node = 0; node < t.nodes; node++) {
            p = part_of(&t, node, s->k, room);
            if (!tally_part(book, &g, order, count, &p))
                return false;
        }
    }
    for (unsigned i = 0; i < g.first[SECTIONS]; i++)
        if (book[g.place[i] + 1] != g.tally[i])
            return false;
    return true;
}

/* Whether a slice is a book in form that agrees with itself: 0, 4, 5 or 9. */
static unsigned check_book(const uint16_t *book, size_t words, shape *s)
{
    if (!size_allowed(words))
        return OFB_BOOK_SIZE;
    if (!in_form(book, words, s))
        return OFB_NOT_IN_FORM;
    return agrees(book, s) ? OFB_DONE : OFB_NOT_AGREEING;
}

/* Finds the places of all entries of another book in the book, each section of both being gone through once. */
static void find_addends(const uint16_t *book, const shape *s, const uint16_t *other, const shape *o, addends *all)
{
    all->number = all->more = 0;
    for (unsigned section = T; section < SECTIONS; section++) {
        unsigned at = s->start[section], stop = s->start[section + 1], words;
        all->lacking[section] = 0;
        for (unsigned from = o->start[section]; from < o->start[section + 1]; from += words) {
            addend *e = &all->item[all->number++];
            words = 2 + 2u * other[from];
            at = seek(book, at, stop, other + from + 2, other[from], &e->known);
            e->from = (uint16_t)from;
            e->place = (uint16_t)at;
            if (e->known) {
                at += words;
            } else {
                all->more += words;
                all->lacking[section]++;
            }
        }
    }
}

/* Adds the counts of the known entries of another book and enters the others; from the end back, so each word moves once. */
static void enter_addends(uint16_t *book, unsigned used, const uint16_t *other, const addends *all)
{
    unsigned from = used, to = used + all->more;
    for (unsigned i = all->number; i-- > 0;) {
        const addend *e = &all->item[i];
        if (e->known) {
            book[e->place + 1] = (uint16_t)(book[e->place + 1] + other[e->from + 1]);
            continue;
        }
        unsigned n = from - e->place, words = 2 + 2u * other[e->from];
        from -= n;
        to -= n;
        memmove(book + to, book + from, n * sizeof *book);
        to -= words;
        memcpy(book + to, other + e->from, words * sizeof *book);
    }
    book[1] = (uint16_t)(used + all->more);
    book[2] = (uint16_t)(book[2] + other[2]);
    for (unsigned section = T; section < SECTIONS; section++)
        book[3 + section] = (uint16_t)(book[3 + section] + all->lacking[section]);
}

/* Whether a byte is a decimal digit. */
static bool digit(uint8_t c)
{
    return c >= '0' && c <= '9';
}

/* Reads the line at the front of a text: its length with the LF, or 0 if it is misspelt. */
static size_t read_line(const uint8_t *text, size_t bytes, unsigned *level, unsigned *code)
{
    size_t at = 1;
    if (bytes < 7 || !digit(text[0]))
        return 0;
    *level = text[0] - '0';
    if (digit(text[1])) {
        if (*level == 0)
            return 0;
        *level = 10 * *level + text[1] - '0';
        at = 2;
    }
    if (bytes - at < 6 || text[at] != ' ' || text[at + 5] != '\n')
        return 0;
    *code = 0;
    for (unsigned i = 1; i <= 4; i++) {
        if (!digit(text[at + i]))
            return 0;
        *code = 10 * *code + text[at + i] - '0';
    }
    return at + 6;
}

/* Writes a node's line at the front of out, and gives its length. */
static size_t write_line(uint8_t *out, unsigned level, unsigned code)
{
    size_t n = 0;
    if (level >= 10)
        out[n++] = (uint8_t)('0' + level / 10);
    out[n++] = (uint8_t)('0' + level % 10);
    out[n++] = ' ';
    out[n++] = (uint8_t)('0' + code / 1000);
    out[n++] = (uint8_t)('0' + code / 100 % 10);
    out[n++] = (uint8_t)('0' + code / 10 % 10);
    out[n++] = (uint8_t)('0' + code % 10);
    out[n++] = '\n';
    return n;
}

/* Makes an empty book of the slice. */
ofb_answer plain_open(uint16_t *book, size_t words, uint16_t k)
{
    if (!size_allowed(words))
        return answer(OFB_BOOK_SIZE, 0, 0);
    if (k < LEAST_K || k > MOST_K)
        return answer(OFB_K_OUTSIDE, 0, 0);
    memset(book, 0, words * sizeof *book);
    book[0] = k;
    book[1] = HEAD;
    return answer(OFB_DONE, 0, 0);
}

/* Teaches an order to the book. */
ofb_answer plain_teach(uint16_t *book, size_t words, const uint16_t *order, size_t order_words)
{
    shape s;
    parts all;
    unsigned number = prepare(book, words, order, order_words, &s, &all), more = 0;
    if (number != OFB_DONE)
        return answer(number, 0, 0);
    if (book[2] == MOST_COUNT)
        return answer(OFB_TOO_MANY, 0, 0);
    for (unsigned i = 0; i < all.number; i++) {
        const part *p = &all.item[i];
        if (!p->known)
            more += 2 + 2u * p->nodes;
        else if (book[p->place + 1] == MOST_COUNT)
            return answer(OFB_TOO_MANY, 0, 0);
    }
    if (s.used + more > words)
        return answer(OFB_NO_ROOM, 0, 0);
    enter_parts(book, s.used, more, &all);
    return answer(OFB_DONE, 0, 0);
}

/* Withdraws one teaching of an order. */
ofb_answer plain_withdraw(uint16_t *book, size_t words, const uint16_t *order, size_t order_words)
{
    shape s;
    parts all;
    unsigned number = prepare(book, words, order, order_words, &s, &all);
    if (number != OFB_DONE)
        return answer(number, 0, 0);
    if (!all.item[0].known)
        return answer(OFB_NOT_TAUGHT, 0, 0);
    for (unsigned i = 1; i < all.number; i++)
        if (!all.item[i].known)
            return answer(OFB_NOT_AGREEING, 0, 0);
    take_parts(book, s.used, &all);
    return answer(OFB_DONE, 0, 0);
}

/* Joins another book to the book. Where both agree with themselves no count is above word 2, so only the sum of these can pass 65,535. */
ofb_answer plain_join(uint16_t *book, size_t words, const uint16_t *other, size_t other_words)
{
    shape s, o;
    addends all;
    if (!size_allowed(words))
        return answer(OFB_BOOK_SIZE, 0, 0);
    if (!in_form(book, words, &s))
        return answer(OFB_NOT_IN_FORM, 0, 0);
    if (!size_allowed(other_words))
        return answer(OFB_BOOK_SIZE, 0, 0);
    if (!in_form(other, other_words, &o))
        return answer(OFB_NOT_IN_FORM, 0, 0);
    if (s.k != o.k)
        return answer(OFB_OTHER_K, 0, 0);
    if (!agrees(book, &s) || !agrees(other, &o))
        return answer(OFB_NOT_AGREEING, 0, 0);
    if (book[2] + other[2] > MOST_COUNT)
        return answer(OFB_TOO_MANY, 0, 0);
    find_addends(book, &s, other, &o, &all);
    if (s.used + all.more > words)
        return answer(OFB_NO_ROOM, 0, 0);
    enter_addends(book, s.used, other, &all);
    return answer(OFB_DONE, 0, 0);
}

/* Whether a line is marked, of those from one up to another. */
static bool any_marked(const bool *marks, unsigned from, unsigned to)
{
    for (unsigned i = from; i < to; i++)
        if (marks[i])
            return true;
    return false;
}

/* A judgement that tells a number alone. */
static ofb_judged judged(unsigned number)
{
    ofb_judged j = { (uint16_t)number, 0, 0, 0, 0, 0 };
    return j;
}

/* The place of the first word in which two trees differ that are not the same, counted from 1. */
static uint16_t first_difference(const uint16_t *a, const uint16_t *b)
{
    unsigned i = 0;
    while (a[i] == b[i])
        i++;
    return (uint16_t)(i + 1);
}

/* A judgement on an unknown part at a line: where the part would stand in its section, and how it differs from the entries that it would stand between. */
static ofb_judged doubted(const uint16_t *book, const shape *s, unsigned number, unsigned line, const part *p)
{
    ofb_judged j = { (uint16_t)number, (uint16_t)line, 0, 0, 0, 0 };
    unsigned at = s->start[p->section], stop = s->start[p->section + 1], before = 0;
    while (at < stop && compare(book + at + 2, book[at], p->words, p->nodes) < 0) {
        before = at;
        at += 2 + 2u * book[at];
        j.below++;
    }
    if (before != 0)
        j.place_below = first_difference(book + before + 2, p->words);
    if (at < stop)
        j.place_above = first_difference(book + at + 2, p->words);
    return j;
}

/*
 * Judges an order by the book: the lines whose part is unknown are marked, and the least marked one is told that has no marked line strictly below it. Where
 * none is marked the top decides. The book's shape and the order laid out are left for what follows a verdict.
 */
static ofb_judged judge_by(const uint16_t *book, size_t words, const uint16_t *order, size_t order_words, shape *s, tree *t)
{
    uint16_t room[MOST_ORDER];
    bool unknown[MOST_NODES], known;
    if (!size_allowed(words))
        return judged(OFB_BOOK_SIZE);
    if (!in_form(book, words, s))
        return judged(OFB_NOT_IN_FORM);
    unsigned number = read_order(order, order_words, t);
    if (number != OFB_DONE)
        return judged(number);
    for (unsigned node = 0; node < t->nodes; node++) {
        part p = part_of(t, node, s->k, room);
        seek(book, s->start[p.section], s->start[p.section + 1], p.words, p.nodes, &known);
        unknown[node] = !known;
    }
    for (unsigned node = 0; node < t->nodes; node++)
        if (unknown[node] && !any_marked(unknown, node + 1, t->end[node])) {
            part p = part_of(t, node, s->k, room);
            return doubted(book, s, p.section == L ? OFB_LOW_UNKNOWN : OFB_MIDDLE_UNKNOWN, node + 1, &p);
        }
    part top = { room, (uint16_t)cut(t, 0, s->k - 2, room), 0, R, false };
    seek(book, s->start[R], s->start[R + 1], top.words, top.nodes, &known);
    return known ? judged(OFB_DONE) : doubted(book, s, OFB_TOP_UNKNOWN, 1, &top);
}

/* Judges an order by the book. */
ofb_judged plain_judge(const uint16_t *book, size_t words, const uint16_t *order, size_t order_words)
{
    shape s;
    tree t;
    return judge_by(book, words, order, order_words, &s, &t);
}

/* What choosing answers, put together. */
static ofb_image image_told(unsigned number, unsigned line, unsigned image)
{
    ofb_image i = { (uint16_t)number, (uint16_t)line, image };
    return i;
}

/* Whether a tree is the low or middle part of a node: its subtree cut at k-1, which leaves a low part as it is. No tree begins with the words of another. */
static bool part_is(const tree *t, unsigned node, unsigned k, const uint16_t *words, unsigned nodes)
{
    unsigned lowest = t->depth[node] + k - 1, i = node;
    for (unsigned n = 0; n < nodes; n++) {
        bool leaf = t->depth[i] == lowest;
        if (t->words[2 * i] != words[2 * n] || (leaf ? 0 : t->words[2 * i + 1]) != words[2 * n + 1])
            return false;
        i = leaf ? t->end[i] : i + 1;
    }
    return true;
}

/* Whether a tree is the part of one of an order's nodes. */
static bool rule_fits(const tree *t, unsigned k, const uint16_t *words, unsigned nodes)
{
    for (unsigned node = 0; node < t->nodes; node++)
        if (t->words[2 * node] == words[0] && part_is(t, node, k, words, nodes))
            return true;
    return false;
}

/*
 * Chooses an image for an order that passes, in one pass over the list. A rule matters only while no two have differed, and if it names another image than the
 * one found; but its layout does to the end.
 */
static ofb_image image_by(const tree *t, unsigned k, const uint16_t *rules, size_t words)
{
    unsigned image = 0;
    bool two = false;
    size_t at = 1;
    if (words == 0 || rules[0] > MOST_RULES)
        return image_told(OFB_NO_RULES, 0, 0);
    for (unsigned left = rules[0]; left > 0; left--) {
        if (words - at < 2)
            return image_told(OFB_NO_RULES, 0, 0);
        unsigned named = rules[at], nodes = rules[at + 1];
        at += 2;
        if (named == 0 || nodes > MOST_NODES || 2 * nodes > words - at || tree_depth(rules + at, nodes, k - 1) == NO_TREE)
            return image_told(OFB_NO_RULES, 0, 0);
        if (!two && named != image && rule_fits(t, k, rules + at, nodes)) {
            two = image != 0;
            image = named;
        }
        at += 2 * nodes;
    }
    if (at != words)
        return image_told(OFB_NO_RULES, 0, 0);
    if (two)
        return image_told(OFB_TWO_IMAGES, 0, 0);
    return image_told(image == 0 ? OFB_NO_IMAGE : OFB_DONE, 0, image);
}

/* Chooses the image to build an order with. */
ofb_image plain_choose(const uint16_t *book, size_t words, const uint16_t *order, size_t order_words, const uint16_t *rules, size_t rule_words)
{
    shape s;
    tree t;
    ofb_judged verdict = judge_by(book, words, order, order_words, &s, &t);
    if (verdict.number != OFB_DONE)
        return image_told(verdict.number, verdict.line, 0);
    return image_by(&t, s.k, rules, rule_words);
}

/* Whether the book agrees with itself. */
ofb_answer plain_check(const uint16_t *book, size_t words)
{
    shape s;
    return answer(check_book(book, words, &s), 0, 0);
}

/* Writes the book's file: mark, version, used words, high byte first. */
ofb_answer plain_write_file(const uint16_t *book, size_t words, uint8_t *out, size_t bytes)
{
    static const uint8_t head[FILE_HEAD] = { 'O', 'F', 'B', 0, 1 };
    shape s;
    unsigned number = check_book(book, words, &s);
    if (number != OFB_DONE)
        return answer(number, 0, 0);
    if (bytes < FILE_HEAD + 2 * s.used)
        return answer(OFB_SHORT_OUTPUT, 0, 0);
    memcpy(out, head, FILE_HEAD);
    for (unsigned i = 0; i < s.used; i++) {
        out[FILE_HEAD + 2 * i] = (uint8_t)(book[i] >> 8);
        out[FILE_HEAD + 2 * i + 1] = (uint8_t)book[i];
    }
    return answer(OFB_DONE, 0, FILE_HEAD + 2 * s.used);
}

/* Makes the slice the book of a file, which is looked at in a place of its own before anything lent is changed. */
ofb_answer plain_read_file(const uint8_t *file, size_t bytes, uint16_t *book, size_t words)
{
    uint16_t stored[MOST_WORDS];
    shape s;
    if (!size_allowed(words))
        return answer(OFB_BOOK_SIZE, 0, 0);
    if (bytes < FILE_HEAD || memcmp(file, "OFB", 3) != 0)
        return answer(OFB_NO_MARK, 0, 0);
    if (file[3] != 0 || file[4] != 1)
        return answer(OFB_OTHER_VERSION, 0, 0);
    size_t n = (bytes - FILE_HEAD) / 2;
    if ((bytes - FILE_HEAD) % 2 != 0 || !size_allowed(n))
        return answer(OFB_NO_STORED_BOOK, 0, 0);
    for (size_t i = 0; i < n; i++)
        stored[i] = (uint16_t)(file[FILE_HEAD + 2 * i] << 8 | file[FILE_HEAD + 2 * i + 1]);
    if (stored[1] != n || !in_form(stored, n, &s))
        return answer(OFB_NO_STORED_BOOK, 0, 0);
    if (!agrees(stored, &s))
        return answer(OFB_NOT_AGREEING, 0, 0);
    if (n > words)
        return answer(OFB_NO_ROOM, 0, 0);
    memcpy(book, stored, n * sizeof *book);
    memset(book + n, 0, (words - n) * sizeof *book);
    return answer(OFB_DONE, 0, 0);
}

/* Reads the text of an order form. */
ofb_answer plain_read_text(const uint8_t *text, size_t bytes, uint16_t *out, size_t words)
{
    uint16_t order[MOST_ORDER];
    uint8_t last[MOST_DEPTH + 1];   /* the latest node of each level */
    unsigned nodes = 0, before = 0, level, code;
    if (bytes == 0)
        return answer(OFB_NO_FORM, 1, 0);
    for (size_t at = 0; at < bytes; nodes++) {
        if (nodes == MOST_NODES)
            return answer(OFB_TOO_LARGE, nodes + 1, 0);
        size_t length = read_line(text + at, bytes - at, &level, &code);
        if (length == 0 || code == 0 || (nodes == 0 ? level != 0 : level == 0 || level > before + 1))
            return answer(OFB_NO_FORM, nodes + 1, 0);
        if (level > MOST_DEPTH)
            return answer(OFB_TOO_LARGE, nodes + 1, 0);
        if (level > 0 && ++order[2 * last[level - 1] + 1] > MOST_KIDS)
            return answer(OFB_NO_FORM, nodes + 1, 0);
        order[2 * nodes] = (uint16_t)code;
        order[2 * nodes + 1] = 0;
        last[level] = (uint8_t)nodes;
        before = level;
        at += length;
    }
    if (words < 2 * nodes)
        return answer(OFB_SHORT_OUTPUT, 0, 0);
    memcpy(out, order, 2 * nodes * sizeof *out);
    return answer(OFB_DONE, 0, 2 * nodes);
}

/* Writes the text of an order. */
ofb_answer plain_write_text(const uint16_t *order, size_t words, uint8_t *out, size_t bytes)
{
    tree t;
    size_t needed = 0;
    unsigned number = read_order(order, words, &t);
    if (number != OFB_DONE)
        return answer(number, 0, 0);
    for (unsigned i = 0; i < t.nodes; i++)
        needed += t.depth[i] < 10 ? 7 : 8;
    if (bytes < needed)
        return answer(OFB_SHORT_OUTPUT, 0, 0);
    for (unsigned i = 0; i < t.nodes; i++)
        out += write_line(out, t.depth[i], order[2 * i]);
    return answer(OFB_DONE, 0, needed);
}

/* The subtree of a line of an order, as a part of the order's words. */
ofb_part plain_subtree(const uint16_t *order, size_t words, size_t line)
{
    tree t;
    ofb_part none = { 0, 0 };
    if (read_order(order, words, &t) != OFB_DONE || line == 0 || line > t.nodes)
        return none;
    ofb_part subtree = { (uint32_t)(2 * (line - 1)), (uint32_t)(2 * (t.end[line - 1] - (line - 1))) };
    return subtree;
}
