/*
 * What the comparison and the measurement share: the two implementations of the twelve functions as tables, numbers that look random
 * and repeat from their seed, and orders grown by them.
 */
#ifndef INPUTS_H
#define INPUTS_H

#include <stddef.h>
#include <stdint.h>

#include "ofb.h"

enum {
    HEAD_WORDS = 7,             /* the words of a book before its sections */
    BOOK_WORDS = 16384,         /* the most words that a book's slice may have */
    FILE_HEAD = 5,              /* the bytes of a file before the book's words */
    MOST_NODES = 64,            /* the most nodes of an order */
    MOST_DEPTH = 12,            /* the greatest depth of an order */
    MOST_CHILDREN = 8,          /* the most children of a node */
    ORDER_ROOM = 288,           /* the words of a buffer for an order, also for one past the limits */
    LINE_BYTES = 8              /* the most bytes of a line of an order form */
};

/* The twelve functions of one implementation. */
struct implementation {
    const char *name;
    ofb_answer (*open)(uint16_t *book, size_t words, uint16_t k);
    ofb_answer (*teach)(uint16_t *book, size_t words, const uint16_t *order, size_t order_words);
    ofb_answer (*withdraw)(uint16_t *book, size_t words, const uint16_t *order, size_t order_words);
    ofb_answer (*join)(uint16_t *book, size_t words, const uint16_t *other, size_t other_words);
    ofb_judged (*judge)(const uint16_t *book, size_t words, const uint16_t *order, size_t order_words);
    ofb_image (*choose)(const uint16_t *book, size_t words, const uint16_t *order, size_t order_words, const uint16_t *rules, size_t rule_words);
    ofb_answer (*check)(const uint16_t *book, size_t words);
    ofb_answer (*write_file)(const uint16_t *book, size_t words, uint8_t *out, size_t bytes);
    ofb_answer (*read_file)(const uint8_t *file, size_t bytes, uint16_t *book, size_t words);
    ofb_answer (*read_text)(const uint8_t *text, size_t bytes, uint16_t *out, size_t words);
    ofb_answer (*write_text)(const uint16_t *order, size_t words, uint8_t *out, size_t bytes);
    ofb_part (*subtree)(const uint16_t *order, size_t words, size_t line);
};

extern const struct implementation library;
extern const struct implementation plain;

/* A source of numbers; equal states give equal numbers. */
struct dice {
    uint64_t state;
};

/* An order, sound or not, as words. */
struct order {
    size_t words;
    uint16_t at[ORDER_ROOM];
};

/* How an order is grown: its limits, how often a node goes below the last one, and how many codes there are to choose from. */
struct style {
    unsigned depth;             /* the greatest depth */
    unsigned children;          /* the most children of a node */
    unsigned stretch;           /* of 100 nodes, how many become a child of the node before them where that may be */
    unsigned alphabet;          /* codes for every place; with 0 the three below are used */
    unsigned tops;              /* codes for the top */
    unsigned groups;            /* codes for the top's children */
    unsigned options;           /* codes, for each of these children, for what stands below it */
};

/* The next number, of 64 bits. */
uint64_t dice_next(struct dice *dice);

/* A number below a limit that is not 0. */
unsigned dice_below(struct dice *dice, unsigned limit);

/* Whether a throw of so many in 100 falls. */
int dice_percent(struct dice *dice, unsigned percent);

/* Grows an order of so many nodes, at most ORDER_ROOM / 2, or of fewer where its style has no place for more. */
void order_grow(struct order *order, struct dice *dice, unsigned nodes, const struct style *style);

#endif
