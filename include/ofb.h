/*
 * The book of built orders, for programs in C or in a language that calls C. The library behind it, libofb.a, is written in Rattle: each function
 * below is proved, for all that may be lent to it, to end, to read and write only what it is lent, and to answer as the rules say.
 * It keeps nothing between calls, asks for no memory, and needs of the C library no more than memcpy and memset. It is for x86-64. Of the stack,
 * as measured with an older compiler, ofb_read_file takes some 58 KiB, ofb_check, ofb_join and ofb_write_file 26 KiB, ofb_teach and ofb_withdraw 4 KiB,
 * and every other call at most 2 KiB.
 *
 * An order is a tree of options in preorder, two words for each: its code, 1 to 9999, and how many children it has, 0 to 8. It has at most 64 options, and
 * is at most 12 deep. A book is a slice of 7 to 16,384 words; ofb_open makes an empty one. Word 0 of a book is how deep it looks, k, word 1 how many of
 * its words it uses, word 2 how many teachings it holds. Words 3 to 6 are how many entries each of its sections has: the orders, their tops, their low parts
 * and their middle parts, which are told of below. The entries follow from word 7 on, section after section, each as its number of options, its count, and the
 * two words for each of its options.
 *
 * The top of an order is the order cut at depth k-2. Each of its lines stands for a part: its subtree, where that is at most k-2 deep, which is a low part;
 * and otherwise its subtree cut at depth k-1, which is a middle part. A book that was opened, taught and withdrawn from has just those of its orders.
 *
 * What is lent, for a call: a pointer, aligned for what it points to, and how many words or bytes stand there. The parts of one call may not overlap. A
 * part of length 0 has a pointer too, to anything that is aligned, and not NULL. Calls on different books may run at the same time.
 *
 * A call that answers another number than 0, and every call of ofb_judge and of ofb_choose, leaves all that was lent to it as it was.
 */
#ifndef OFB_H
#define OFB_H

#include <stddef.h>
#include <stdint.h>

#ifdef __cplusplus
extern "C" {
#endif

/* The numbers that are answered. */
enum {
    OFB_DONE = 0,              /* done, or the order passes */
    OFB_NO_ORDER = 1,          /* the order is empty, of odd length, has a code or child count out of range, or is not exactly one tree */
    OFB_TOO_LARGE = 2,         /* the order has over 128 words or is deeper than 12; the text goes past line 64, or has a level over 12 */
    OFB_K_OUTSIDE = 3,         /* k is not 2 to 6 */
    OFB_BOOK_SIZE = 4,         /* the book's slice is shorter than 7 or longer than 16,384 words */
    OFB_NOT_IN_FORM = 5,       /* these words are no book in form */
    OFB_NO_ROOM = 6,           /* the result needs more words than the book's slice has */
    OFB_TOO_MANY = 7,          /* the teachings held, or a count, would pass 65,535 */
    OFB_NOT_TAUGHT = 8,        /* the book does not hold this order */
    OFB_NOT_AGREEING = 9,      /* the book does not agree with itself, or, in withdrawing, lacks a part of the order */
    OFB_NO_FORM = 10,          /* the text has no bytes, or a line that is misspelt, has code 0000 or a level that may not stand there, or is a ninth child */
    OFB_SHORT_OUTPUT = 11,     /* the lent output is too short */
    OFB_NO_MARK = 12,          /* the file is under 5 bytes, or does not begin with OFB */
    OFB_OTHER_VERSION = 13,    /* the file's version is not 1 */
    OFB_NO_STORED_BOOK = 14,   /* what follows in the file is not the used words of a book in form */
    OFB_OTHER_K = 15,          /* the two books look differently deep */
    OFB_TOP_UNKNOWN = 20,      /* the part of every line is in the book, but the order's top is not among its tops */
    OFB_LOW_UNKNOWN = 21,      /* this line's part, all of its subtree, is not among the book's low parts; those of all lines below it are in the book */
    OFB_MIDDLE_UNKNOWN = 22,   /* this line's part is not among the book's middle parts; those of all lines below it are in the book */
    OFB_NO_IMAGE = 30,         /* no rule fits the order */
    OFB_TWO_IMAGES = 31,       /* two rules that fit the order name different images */
    OFB_NO_RULES = 32          /* these words are no rule list, or a rule's tree is deeper than k-1 */
};

/* An answer: its number; the line it speaks of, counted from 1, or 0; and how many words or bytes were written to an output that is not a book. */
typedef struct { uint16_t number; uint16_t line; uint32_t written; } ofb_answer;

/*
 * A judgement: its number, and the line it speaks of, as in an answer. The other four tell, with 20, 21 and 22, what the book would have expected there: where
 * that which is unknown would stand among those that the book knows. With 20 this is the order's top among the tops, with 21 the line's part among the low
 * parts, with 22 the line's part among the middle parts; these stand in the book in ascending order, compared word by word from the first. With any other
 * number the four are 0.
 *   below         how many of them are lower; the book holds those first, and the others behind them
 *   there         1 if it is one of them, and 0 if not; with 20, 21 and 22 it is not
 *   place_below   of the last one that is lower, the place of the first word in which it and the unknown one differ; 0 if none is lower
 *   place_above   the same of the first one that is higher; 0 if none is
 * Places are counted from 1 over the two words for each option: word 2n-1 is the code of option n, and word 2n how many children that has.
 */
typedef struct { uint16_t number; uint16_t line; uint16_t below; uint16_t there; uint16_t place_below; uint16_t place_above; } ofb_judged;

/* What choosing answers: a number; the line it speaks of, as ofb_judge has it, or 0; and the image, 1 to 65,535, with number 0, and otherwise 0. */
typedef struct { uint16_t number; uint16_t line; uint32_t image; } ofb_image;

/* A part of an order: the word at which it starts, counted from 0, and how many words it has. */
typedef struct { uint32_t start; uint32_t words; } ofb_part;

/* Makes an empty book of the whole slice, which looks k deep. Refused by 4, 3, looked for in this order. */
ofb_answer ofb_open(uint16_t *book, size_t words, uint16_t k);

/* Teaches an order to the book. Refused by 4, 5, 1, 2, 7, 6, looked for in this order. */
ofb_answer ofb_teach(uint16_t *book, size_t words, const uint16_t *order, size_t order_words);

/*
 * Withdraws one teaching of an order; a book that agrees with itself (see ofb_check) is then as if that had never been taught. Refused by 4, 5, 1, 2, 8, 9,
 * looked for in this order.
 */
ofb_answer ofb_withdraw(uint16_t *book, size_t words, const uint16_t *order, size_t order_words);

/*
 * Joins another book to the book, which then holds the orders of both, their counts added. The other book stays as it is; to double a book, join it to a
 * copy of itself. The other's slice may be of any length that a book's may be: what the two hold together has to fit the book's. Refused by 4 and 5 for
 * the book, 4 and 5 for the other, 15 where their k differ, 9 for the book, 9 for the other, 7, 6, looked for in this order.
 */
ofb_answer ofb_join(uint16_t *book, size_t words, const uint16_t *other, size_t other_words);

/*
 * Judges an order: 0 if its top, its low parts and its middle parts are all in the book. Where the part of some line is not, the line is the first one whose
 * part is not while those of all lines below it are, the line to correct, with 21 for a low part and 22 for a middle part; below a line stand those that
 * follow it with higher levels, up to the next line of its level or above. 20 with line 1 only where the part of every line is in the book and the top is
 * not. With these three it also tells what the book would have expected there. Refused before that by 4, 5, 1, 2, looked for in this order. It writes nothing, and
 * its answer has no `written`.
 */
ofb_judged ofb_judge(const uint16_t *book, size_t words, const uint16_t *order, size_t order_words);

/*
 * Chooses the image to build an order with, by a list of rules that say of a part which image it asks for. A rule list is the number of its rules, 0 to 64, and
 * then for each rule its image, 1 to 65,535, how many options its tree has, and the two words for each of these; the tree is laid out as an order, within
 * an order's limits, and at most k-1 deep, for the book's k. Behind the last rule stands nothing. A rule fits an order if its tree is the part, low or middle, of
 * one of the order's lines; the order's top is no part of it as such. The answer is 0 with the image if some rule fits and all that fit name this one.
 * Refused by 4, 5, 1, 2, 20, 21, 22 with the line, as ofb_judge, and then by 32, 30, 31, looked for in this order. It writes nothing.
 */
ofb_image ofb_choose(const uint16_t *book, size_t words, const uint16_t *order, size_t order_words, const uint16_t *rules, size_t rule_words);

/* Whether the book agrees with itself: its parts and counts are those of the orders that it holds. 0, or 4, 5, 9, looked for in this order. */
ofb_answer ofb_check(const uint16_t *book, size_t words);

/*
 * Writes the book's file to the front of out: 5 bytes and two for each word used. `written` is how many bytes. Refused by 4, 5, 9, 11, looked for in
 * this order.
 */
ofb_answer ofb_write_file(const uint16_t *book, size_t words, uint8_t *out, size_t bytes);

/* Makes the whole slice the book of a file. Refused by 4, 12, 13, 14, 9, 6, looked for in this order. */
ofb_answer ofb_read_file(const uint8_t *file, size_t bytes, uint16_t *book, size_t words);

/*
 * Reads the text of an order form to the order's words, at the front of out. `written` is how many words. Refused by 2 or 10 with the first line at fault,
 * and then by 11.
 */
ofb_answer ofb_read_text(const uint8_t *text, size_t bytes, uint16_t *out, size_t words);

/* Writes the text of an order to the front of out. `written` is how many bytes. Refused by 1, 2, 11, looked for in this order. */
ofb_answer ofb_write_text(const uint16_t *order, size_t words, uint8_t *out, size_t bytes);

/* The subtree of a line of an order, counted from 1; start 0 and 0 words for what is no order, and for a line that the order lacks. */
ofb_part ofb_subtree(const uint16_t *order, size_t words, size_t line);

#ifdef __cplusplus
}
#endif

#endif
