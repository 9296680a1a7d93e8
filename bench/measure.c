/*
 * Measures how long each of the twelve functions takes in the library and in plain C, in one process and by turns, and prints the ratios.
 *
 *     measure [indicative] [K]
 *
 * K is how deep the books look, 2 to 6; 3 where it is not given. With the word `indicative` the table says that it was made under
 * an emulator.
 */
#define _POSIX_C_SOURCE 200809L

#include <stdio.h>
#include <stdlib.h>
#include <string.h>
#include <time.h>

#include "inputs.h"

enum {
    ROUNDS = 9,                 /* rounds in which both are measured by turns; the least time of them counts */
    BATCH_NS = 5000000,         /* how long a batch of calls takes at least */
    COPIES_BYTES = 2 << 20,     /* the most bytes of the copies of a book to which a batch teaches */
    MOST_COPIES = 256,
    PAIRS = 64,                 /* pairs of books that are joined by turns */
    CROWD = 32,                 /* orders with their books that are judged, and get an image, by turns */
    SIZES = 4,
    SHAPES = 3,
    MOST_ROWS = 136,
    RULES = 64,                 /* rules of the longer list by which an image is chosen, which is the most that a list may have */
    FEW_RULES = 4,              /* and of the shorter one */
    RULE_NODES = 4,             /* the most nodes of such a rule's tree */
    RULE_WORDS = 2 + 2 * RULE_NODES,
    CHOSEN_IMAGE = 7,           /* the image of all rules that fit; each other rule has one of its own */
    OTHER_IMAGES = 100,
    KINDS = 3,                  /* judging, and choosing by few and by many rules */
    DESK_SIZE = 8000,           /* a book of about as many words as the desk's, which is 8,192 */
    TRIES = 400                 /* orders tried where the book is nearly as large as it should be */
};

static const unsigned sizes[SIZES] = {500, 2000, 8000, 16000};
static const unsigned shapes[SHAPES] = {5, 20, MOST_NODES};
static const struct style practice = {4, MOST_CHILDREN, 10, 0, 4, 6, 8};
static const struct style unheard = {4, MOST_CHILDREN, 10, 9000, 0, 0, 0};

/* A rule list. */
struct rules {
    size_t words;
    uint16_t at[1 + RULES * RULE_WORDS];
};

/* One line of the table. */
struct row {
    const char *function;
    unsigned size;              /* words used that were asked for, or 0 where no book plays a part */
    unsigned used;              /* words used */
    unsigned nodes;             /* nodes of the order, or 0 where no order plays a part */
    double ns[2];               /* a call of the library, and of plain C */
};

/* All that is lent in a measurement. */
struct task {
    uint16_t k;
    size_t slice;               /* words of the book's slice */
    uint16_t book[BOOK_WORDS];
    uint16_t spare[BOOK_WORDS];
    struct order order;
    struct rules few, many;     /* rules for the order, by which one image is chosen */
    uint8_t text[MOST_NODES * LINE_BYTES];
    size_t text_bytes;
    uint8_t file[FILE_HEAD + 2 * BOOK_WORDS];
    size_t file_bytes;
    uint16_t *copies;           /* slices with copies of the book, one behind the other */
    unsigned copies_count;
};

/*
 * Two books to join. There are so many pairs that no processor knows the way through the next one from the round before, as it comes to know it where one and
 * the same call is made again and again: a book is joined once, and not twice.
 */
struct pair {
    size_t slice;               /* words of both slices */
    uint16_t book[BOOK_WORDS];
    uint16_t other[BOOK_WORDS]; /* the book that is joined to it */
    uint16_t sum[BOOK_WORDS];   /* what they make */
    uint16_t copy[BOOK_WORDS];  /* the book, for a call */
};

/* Makes so many calls of one function and gives the sum of their answers' numbers, which is 0 where all are done. */
typedef unsigned long batch(const struct implementation *which, struct task *task, unsigned long calls);

/*
 * What choosing costs against judging, for a size of book and of order: the nanoseconds of a call of either implementation, of judging, of choosing by few rules
 * and by many. They are means over a crowd of orders, each with a book and rules of its own, that take turns for the reason that pairs do.
 */
struct choice {
    unsigned size, nodes;
    double ns[2][KINDS];
};

static struct choice choices[SHAPES * SIZES];
static struct row rows[MOST_ROWS];
static unsigned rows_count;
static const struct implementation *const both[2] = {&library, &plain};

/* Gives the time that the process has run in nanoseconds, so that what else the machine does is not measured. */
static double now(void)
{
    struct timespec t;
    clock_gettime(CLOCK_PROCESS_CPUTIME_ID, &t);
    return (double)t.tv_sec * 1e9 + (double)t.tv_nsec;
}

/* Ends the program where a call that is measured is refused, since its time would say nothing. */
static void demand(int held, const char *what)
{
    if (held)
        return;
    fprintf(stderr, "measure: %s\n", what);
    exit(2);
}

/* Opens the spare slice. */
static unsigned long batch_open(const struct implementation *which, struct task *task, unsigned long calls)
{
    unsigned long sum = 0;
    for (unsigned long i = 0; i < calls; i++)
        sum += which->open(task->spare, task->slice, task->k).number;
    return sum;
}

/* Judges the order by the book. */
static unsigned long batch_judge(const struct implementation *which, struct task *task, unsigned long calls)
{
    unsigned long sum = 0;
    for (unsigned long i = 0; i < calls; i++)
        sum += which->judge(task->book, task->slice, task->order.at, task->order.words).number;
    return sum;
}

/* Judges the order by the book, which doubts it: 0 is given where each call tells a line. */
static unsigned long batch_doubt(const struct implementation *which, struct task *task, unsigned long calls)
{
    unsigned long sum = 0;
    for (unsigned long i = 0; i < calls; i++)
        sum += which->judge(task->book, task->slice, task->order.at, task->order.words).line == 0;
    return sum;
}

/* Chooses the image for the order by a list: 0 is given where each call names that of the rules that fit. */
static unsigned long choose_by(const struct implementation *which, struct task *task, const struct rules *rules, unsigned long calls)
{
    unsigned long sum = 0;
    for (unsigned long i = 0; i < calls; i++)
        sum += which->choose(task->book, task->slice, task->order.at, task->order.words, rules->at, rules->words).image != CHOSEN_IMAGE;
    return sum;
}

/* Chooses the image for the order by few rules. */
static unsigned long batch_choose_few(const struct implementation *which, struct task *task, unsigned long calls)
{
    return choose_by(which, task, &task->few, calls);
}

/* Chooses the image for the order by many rules. */
static unsigned long batch_choose_many(const struct implementation *which, struct task *task, unsigned long calls)
{
    return choose_by(which, task, &task->many, calls);
}

/* Checks the book. */
static unsigned long batch_check(const struct implementation *which, struct task *task, unsigned long calls)
{
    unsigned long sum = 0;
    for (unsigned long i = 0; i < calls; i++)
        sum += which->check(task->book, task->slice).number;
    return sum;
}

/* Writes the book's file. */
static unsigned long batch_write_file(const struct implementation *which, struct task *task, unsigned long calls)
{
    unsigned long sum = 0;
    for (unsigned long i = 0; i < calls; i++)
        sum += which->write_file(task->book, task->slice, task->file, sizeof task->file).number;
    return sum;
}

/* Reads the book's file to the spare slice. */
static unsigned long batch_read_file(const struct implementation *which, struct task *task, unsigned long calls)
{
    unsigned long sum = 0;
    for (unsigned long i = 0; i < calls; i++)
        sum += which->read_file(task->file, task->file_bytes, task->spare, task->slice).number;
    return sum;
}

/* Reads the order's text to the spare slice. */
static unsigned long batch_read_text(const struct implementation *which, struct task *task, unsigned long calls)
{
    unsigned long sum = 0;
    for (unsigned long i = 0; i < calls; i++)
        sum += which->read_text(task->text, task->text_bytes, task->spare, BOOK_WORDS).number;
    return sum;
}

/* Writes the order's text. */
static unsigned long batch_write_text(const struct implementation *which, struct task *task, unsigned long calls)
{
    unsigned long sum = 0;
    for (unsigned long i = 0; i < calls; i++)
        sum += which->write_text(task->order.at, task->order.words, task->text, sizeof task->text).number;
    return sum;
}

/* Asks for the subtrees of all lines by turns; every one has words. */
static unsigned long batch_subtree(const struct implementation *which, struct task *task, unsigned long calls)
{
    unsigned long sum = 0;
    size_t line = 1;
    for (unsigned long i = 0; i < calls; i++) {
        sum += which->subtree(task->order.at, task->order.words, line).words == 0;
        line = 2 * line < task->order.words ? line + 1 : 1;
    }
    return sum;
}

/* Times a batch in nanoseconds. */
static double time_batch(batch *run, const struct implementation *which, struct task *task, unsigned long calls)
{
    double start = now();
    unsigned long sum = run(which, task, calls);
    double end = now();
    demand(sum == 0, "a measured call was refused");
    return end - start;
}

/* Adds a row with no times yet. */
static struct row *add_row(const char *function, unsigned size, const struct task *task, unsigned nodes)
{
    demand(rows_count < MOST_ROWS, "too many rows");
    struct row *row = &rows[rows_count++];
    row->function = function;
    row->size = size;
    row->used = size ? task->book[1] : 0;
    row->nodes = nodes;
    row->ns[0] = row->ns[1] = 0;
    return row;
}

/* Keeps the lesser of a row's time and a new one. */
static void keep_least(struct row *row, unsigned which, double ns)
{
    if (row->ns[which] == 0 || ns < row->ns[which])
        row->ns[which] = ns;
}

/* Measures a function that leaves its inputs as they are. */
static void measure_steady(struct row *row, batch *run, struct task *task)
{
    unsigned long calls[2] = {1, 1};
    for (unsigned which = 0; which < 2; which++)
        while (time_batch(run, both[which], task, calls[which]) < BATCH_NS)
            calls[which] *= 2;
    for (unsigned round = 0; round < ROUNDS; round++)
        for (unsigned which = 0; which < 2; which++)
            keep_least(row, which, time_batch(run, both[which], task, calls[which]) / (double)calls[which]);
}

/* Teaches the order to every copy, or withdraws it from every copy, and gives the nanoseconds. */
static double time_copies(const struct implementation *which, const struct task *task, int teach)
{
    unsigned long sum = 0;
    uint16_t *at = task->copies;
    double start = now();
    for (unsigned i = 0; i < task->copies_count; i++, at += task->slice) {
        if (teach)
            sum += which->teach(at, task->slice, task->order.at, task->order.words).number;
        else
            sum += which->withdraw(at, task->slice, task->order.at, task->order.words).number;
    }
    double end = now();
    demand(sum == 0, "a measured teaching or withdrawal was refused");
    return end - start;
}

/* Measures teaching and withdrawing by turns over the copies of a book that does not hold the order, and which end as they were. */
static void measure_pair(struct row *teach, struct row *withdraw, const struct task *task)
{
    for (unsigned round = 0; round < ROUNDS; round++) {
        for (unsigned which = 0; which < 2; which++) {
            double taught = 0, withdrawn = 0, calls = 0;
            while (taught + withdrawn < BATCH_NS) {
                taught += time_copies(both[which], task, 1);
                withdrawn += time_copies(both[which], task, 0);
                calls += task->copies_count;
            }
            keep_least(teach, which, taught / calls);
            keep_least(withdraw, which, withdrawn / calls);
        }
    }
    for (unsigned i = 0; i < task->copies_count; i++)
        demand(!memcmp(task->copies + i * task->slice, task->book, 2 * task->slice), "a book is not as it was before the teaching");
}

/* Fills the book by orders of 5 to 20 nodes to about so many words, with room left for the task's order, which it does not hold. */
static void fill_book(struct task *task, struct dice *dice, unsigned size)
{
    plain.open(task->book, BOOK_WORDS, task->k);
    for (unsigned tries = 0; tries < TRIES && task->book[1] + 20u < size; tries++) {
        struct order order;
        order_grow(&order, dice, 5 + dice_below(dice, 16), &practice);
        if (order.words == task->order.words && !memcmp(order.at, task->order.at, 2 * order.words))
            continue;
        memcpy(task->spare, task->book, sizeof task->book);
        if (plain.teach(task->book, BOOK_WORDS, order.at, order.words).number == 0 && task->book[1] <= size + 20u) {
            memcpy(task->copies, task->book, sizeof task->book);
            if (plain.teach(task->copies, BOOK_WORDS, task->order.at, task->order.words).number == 0) {
                tries = 0;
                continue;
            }
        }
        memcpy(task->book, task->spare, sizeof task->book);
    }
}

/* Sets the slice to be somewhat larger than so many words, and how many copies of it there are. */
static void fit_slice(struct task *task, unsigned words)
{
    task->slice = words + 100u;
    if (task->slice > BOOK_WORDS)
        task->slice = BOOK_WORDS;
    task->copies_count = (unsigned)(COPIES_BYTES / (2 * task->slice));
    if (task->copies_count > MOST_COPIES)
        task->copies_count = MOST_COPIES;
}

/* Makes all copies of the book anew. */
static void renew_copies(const struct task *task)
{
    for (unsigned i = 0; i < task->copies_count; i++)
        memcpy(task->copies + i * task->slice, task->book, 2 * task->slice);
}

/* Measures teaching and withdrawing the task's order, in rows of these names. */
static void measure_changes(struct task *task, const char *teaching, const char *withdrawing, unsigned size, unsigned nodes)
{
    memcpy(task->spare, task->book, sizeof task->book);
    demand(plain.teach(task->spare, BOOK_WORDS, task->order.at, task->order.words).number == 0, "the measured order has no room");
    fit_slice(task, task->spare[1]);
    renew_copies(task);
    struct row *teach = add_row(teaching, size, task, nodes);
    struct row *withdraw = add_row(withdrawing, size, task, nodes);
    measure_pair(teach, withdraw, task);
}

/* Writes the subtree at a place of an order, cut at so many levels, to another order; gives the place behind it. */
static size_t put_cut(struct order *to, const struct order *from, size_t at, unsigned levels, int within)
{
    size_t next = at + 2;
    if (within) {
        to->at[to->words++] = from->at[at];
        to->at[to->words++] = levels ? from->at[at + 1] : 0;
    }
    for (unsigned child = from->at[at + 1]; child; child--)
        next = put_cut(to, from, next, levels ? levels - 1 : 0, within && levels);
    return next;
}

/* Says whether a code stands in the task's order. */
static int has_code(const struct task *task, uint16_t code)
{
    for (size_t at = 0; at < task->order.words; at += 2)
        if (task->order.at[at] == code)
            return 1;
    return 0;
}

/* Says whether a list has a rule of this tree. */
static int has_rule(const struct rules *rules, const struct order *tree)
{
    for (size_t at = 1; at < rules->words; at += 2 + 2 * (size_t)rules->at[at + 1])
        if (2u * rules->at[at + 1] == tree->words && !memcmp(rules->at + at + 2, tree->at, 2 * tree->words))
            return 1;
    return 0;
}

/* Adds a rule to a list, with the image by whether it fits the task's order, which the book has to pass. */
static void add_rule(struct rules *rules, const struct task *task, const struct order *tree)
{
    uint16_t alone[1 + RULE_WORDS] = {1, CHOSEN_IMAGE, (uint16_t)(tree->words / 2)};
    memcpy(alone + 3, tree->at, 2 * tree->words);
    size_t words = 2 + tree->words;
    unsigned number = plain.choose(task->book, task->slice, task->order.at, task->order.words, alone, 1 + words).number;
    demand(number == OFB_DONE || number == OFB_NO_IMAGE, "a measured rule is none");
    if (number == OFB_NO_IMAGE)
        alone[1] = (uint16_t)(OTHER_IMAGES + rules->at[0]);
    memcpy(rules->at + rules->words, alone + 1, 2 * words);
    rules->words += words;
    rules->at[0]++;
}

/*
 * Makes a list of so many rules as one would write it: parts of 1 to 4 nodes, no two the same. Of four rules one is a part of the task's order, as far as it has
 * such, one has a top that stands in it, and two have a top that does not. All but the first are parts of orders like the ones that the book holds.
 */
static void make_rules(struct rules *rules, const struct task *task, struct dice *dice, unsigned number)
{
    rules->at[0] = 0;
    rules->words = 1;
    for (unsigned tries = 0; rules->at[0] < number; tries++) {
        demand(tries < TRIES * TRIES, "there are too few parts for rules");
        unsigned turn = rules->at[0] % 4;
        int own = turn == 0 && tries % TRIES < TRIES / 2;
        struct order order, tree = {0};
        order_grow(&order, dice, 5 + dice_below(dice, 16), &practice);
        const struct order *from = own ? &task->order : &order;
        put_cut(&tree, from, 2 * dice_below(dice, (unsigned)(from->words / 2)), task->k - 1u, 1);
        if (tree.words <= 2 * RULE_NODES && has_code(task, tree.at[0]) == (turn % 2 == 0) && !has_rule(rules, &tree))
            add_rule(rules, task, &tree);
    }
}

/* Measures choosing an image for the task's order by lists of few and of the most rules. */
static void measure_choices(struct task *task, struct dice *dice, unsigned size, unsigned nodes)
{
    make_rules(&task->few, task, dice, FEW_RULES);
    make_rules(&task->many, task, dice, RULES);
    measure_steady(add_row("choose 4", size, task, nodes), batch_choose_few, task);
    measure_steady(add_row("choose 64", size, task, nodes), batch_choose_many, task);
}

/* Makes a crowd of orders, each taught to a book of its own of about so many words, with rules for each. */
static void make_crowd(struct task *crowd, const struct task *task, struct dice *dice, unsigned size, unsigned nodes)
{
    for (struct task *one = crowd; one < crowd + CROWD; one++) {
        one->k = task->k;
        one->copies = task->copies;
        order_grow(&one->order, dice, nodes, &practice);
        fill_book(one, dice, size);
        demand(plain.teach(one->book, BOOK_WORDS, one->order.at, one->order.words).number == 0, "the measured order has no room");
        fit_slice(one, one->book[1]);
        make_rules(&one->few, one, dice, FEW_RULES);
        make_rules(&one->many, one, dice, RULES);
    }
}

/* Makes the same call for all of a crowd, so many times over, and gives the nanoseconds. */
static double time_crowd(batch *run, const struct implementation *which, struct task *crowd, unsigned long turns)
{
    unsigned long sum = 0;
    double start = now();
    for (unsigned long i = 0; i < turns; i++)
        for (unsigned one = 0; one < CROWD; one++)
            sum += run(which, &crowd[one], 1);
    double end = now();
    demand(sum == 0, "a measured call was refused");
    return end - start;
}

/* Measures judging and choosing for a crowd, by turns. */
static void measure_crowd(struct choice *choice, struct task *crowd)
{
    static batch *const kinds[KINDS] = {batch_judge, batch_choose_few, batch_choose_many};
    unsigned long turns = 1;
    while (time_crowd(batch_judge, &plain, crowd, turns) < BATCH_NS)
        turns *= 2;
    for (unsigned i = 0; i < ROUNDS * 2 * KINDS; i++) {
        double *least = &choice->ns[i / KINDS % 2][i % KINDS];
        double ns = time_crowd(kinds[i % KINDS], both[i / KINDS % 2], crowd, turns) / (double)(turns * CROWD);
        if (*least == 0 || ns < *least)
            *least = ns;
    }
}

/* Measures judging and choosing for crowds of all sizes. */
static void measure_crowds(const struct task *task, struct task *crowd)
{
    struct dice dice = {23};
    for (unsigned i = 0; i < SHAPES * SIZES; i++) {
        choices[i].size = sizes[i % SIZES];
        choices[i].nodes = shapes[i / SIZES];
        make_crowd(crowd, task, &dice, choices[i].size, choices[i].nodes);
        measure_crowd(&choices[i], crowd);
    }
}

/* Measures the functions that need a book and an order. */
static void measure_order_in_book(struct task *task, struct dice *dice, unsigned size, unsigned nodes)
{
    measure_changes(task, "teach", "withdraw", size, nodes);
    demand(plain.teach(task->book, task->slice, task->order.at, task->order.words).number == 0, "the measured order has no room");
    measure_steady(add_row("judge", size, task, nodes), batch_judge, task);
    measure_choices(task, dice, size, nodes);
}

/* Measures the functions that need a book and no order. */
static void measure_book(struct task *task, unsigned size)
{
    measure_steady(add_row("open", size, task, 0), batch_open, task);
    measure_steady(add_row("check", size, task, 0), batch_check, task);
    measure_steady(add_row("write_file", size, task, 0), batch_write_file, task);
    task->file_bytes = plain.write_file(task->book, task->slice, task->file, sizeof task->file).written;
    measure_steady(add_row("read_file", size, task, 0), batch_read_file, task);
}

/* Sets the slice of a pair to be somewhat larger than the book that it makes. */
static void fit_pair(struct pair *pair)
{
    pair->slice = pair->sum[1] + 100u;
    if (pair->slice > BOOK_WORDS)
        pair->slice = BOOK_WORDS;
}

/* Teaches orders of 5 to 20 nodes by turns to the book of a pair, to the other and to both, and all to their sum, to about so many words there. */
static void fill_pair(struct pair *pair, uint16_t k, struct dice *dice, unsigned size)
{
    unsigned turn = 0;
    plain.open(pair->book, BOOK_WORDS, k);
    plain.open(pair->other, BOOK_WORDS, k);
    plain.open(pair->sum, BOOK_WORDS, k);
    for (unsigned tries = 0; tries < TRIES && pair->sum[1] + 20u < size; tries++) {
        struct order order;
        order_grow(&order, dice, 5 + dice_below(dice, 16), &practice);
        memcpy(pair->copy, pair->sum, sizeof pair->sum);
        if (plain.teach(pair->sum, BOOK_WORDS, order.at, order.words).number || pair->sum[1] > size + 20u) {
            memcpy(pair->sum, pair->copy, sizeof pair->sum);
            continue;
        }
        if (turn != 1)
            plain.teach(pair->book, BOOK_WORDS, order.at, order.words);
        if (turn != 0)
            plain.teach(pair->other, BOOK_WORDS, order.at, order.words);
        if (turn == 2)
            plain.teach(pair->sum, BOOK_WORDS, order.at, order.words);
        turn = (turn + 1) % 3;
        tries = 0;
    }
    fit_pair(pair);
}

/* Makes both books of a pair the one that they make together. */
static void double_pair(struct pair *pair)
{
    memcpy(pair->book, pair->sum, sizeof pair->sum);
    memcpy(pair->other, pair->sum, sizeof pair->sum);
    demand(plain.join(pair->sum, BOOK_WORDS, pair->other, BOOK_WORDS).number == 0, "a book and its copy cannot be joined");
    fit_pair(pair);
}

/* Joins the books of all pairs, each to a new copy of the first, and gives the nanoseconds. */
static double time_joins(const struct implementation *which, struct pair *pairs)
{
    unsigned long sum = 0;
    for (unsigned i = 0; i < PAIRS; i++)
        memcpy(pairs[i].copy, pairs[i].book, 2 * pairs[i].slice);
    double start = now();
    for (unsigned i = 0; i < PAIRS; i++)
        sum += which->join(pairs[i].copy, pairs[i].slice, pairs[i].other, pairs[i].slice).number;
    double end = now();
    demand(sum == 0, "a measured joining was refused");
    return end - start;
}

/* Measures joining, by pairs of books that come to their sums; the row's words are those of a sum in the mean. */
static void measure_join(struct row *row, struct pair *pairs)
{
    unsigned long used = 0;
    for (unsigned i = 0; i < PAIRS; i++)
        used += pairs[i].sum[1];
    row->used = (unsigned)(used / PAIRS);
    for (unsigned round = 0; round < ROUNDS; round++) {
        for (unsigned which = 0; which < 2; which++) {
            double joined = 0, calls = 0;
            while (joined < BATCH_NS) {
                joined += time_joins(both[which], pairs);
                calls += PAIRS;
            }
            keep_least(row, which, joined / calls);
            for (unsigned i = 0; i < PAIRS; i++)
                demand(!memcmp(pairs[i].copy, pairs[i].sum, 2 * pairs[i].slice), "a book is not what the two make");
        }
    }
}

/* Measures joining books with orders of their own and in common, and joining a book to its copy. */
static void measure_joins(const struct task *task, struct pair *pairs, struct dice *dice, unsigned size)
{
    for (unsigned i = 0; i < PAIRS; i++)
        fill_pair(&pairs[i], task->k, dice, size);
    measure_join(add_row("join", size, task, 0), pairs);
    for (unsigned i = 0; i < PAIRS; i++)
        double_pair(&pairs[i]);
    measure_join(add_row("join copy", size, task, 0), pairs);
}

/* Measures the functions that need an order and no book. */
static void measure_order(struct task *task, unsigned nodes)
{
    measure_steady(add_row("write_text", 0, task, nodes), batch_write_text, task);
    task->text_bytes = plain.write_text(task->order.at, task->order.words, task->text, sizeof task->text).written;
    measure_steady(add_row("read_text", 0, task, nodes), batch_read_text, task);
    measure_steady(add_row("subtree", 0, task, nodes), batch_subtree, task);
}

/* Measures all functions at all sizes. */
static void measure_all(struct task *task, struct pair *pairs)
{
    struct dice dice = {20}, joining = {21}, choosing = {22};
    for (unsigned shape = 0; shape < SHAPES; shape++) {
        order_grow(&task->order, &dice, shapes[shape], &practice);
        measure_order(task, shapes[shape]);
        for (unsigned size = 0; size < SIZES; size++) {
            fill_book(task, &dice, sizes[size]);
            measure_order_in_book(task, &choosing, sizes[size], shapes[shape]);
            if (shape == 0)
                measure_book(task, sizes[size]);
        }
        order_grow(&task->order, &dice, shapes[shape], &unheard);
        for (unsigned size = 0; size < SIZES; size++) {
            fill_book(task, &dice, sizes[size]);
            measure_changes(task, "teach new", "withdraw new", sizes[size], shapes[shape]);
            measure_steady(add_row("judge new", sizes[size], task, shapes[shape]), batch_doubt, task);
        }
    }
    for (unsigned size = 0; size < SIZES; size++)
        measure_joins(task, pairs, &joining, sizes[size]);
}

/* Prints a number, or a dash for none, in a column. */
static void print_count(unsigned count)
{
    if (count)
        printf(" %6u", count);
    else
        printf(" %6s", "-");
}

/* Gives how long the library takes, measured by plain C. */
static double ratio(const struct row *row)
{
    return row->ns[0] / row->ns[1];
}

/* Prints the rows of one function. */
static void print_function(const char *function)
{
    for (unsigned i = 0; i < rows_count; i++) {
        if (strcmp(rows[i].function, function))
            continue;
        printf("%-12s", function);
        print_count(rows[i].used);
        print_count(rows[i].nodes);
        printf(" %12.1f %12.1f %7.2f\n", rows[i].ns[0], rows[i].ns[1], ratio(&rows[i]));
    }
}

/* Finds the row of a function for a size of book and of order. */
static const struct row *find_row(const char *function, unsigned size, unsigned nodes)
{
    for (unsigned i = 0; i < rows_count; i++)
        if (!strcmp(rows[i].function, function) && rows[i].nodes == nodes && rows[i].size == size)
            return &rows[i];
    demand(0, "a row is missing");
    return NULL;
}

/* Prints how the library's time grows with the book for one function and one size of order. */
static void print_growth(const char *function, unsigned nodes)
{
    const struct row *at[SIZES];
    for (unsigned size = 0; size < SIZES; size++)
        at[size] = find_row(function, sizes[size], nodes);
    printf("%-12s", function);
    print_count(nodes);
    for (unsigned size = 0; size < SIZES; size++)
        printf(" %7.2f", at[size]->ns[0] / at[0]->ns[0]);
    printf("  ");
    for (unsigned size = 0; size < SIZES; size++)
        printf(" %7.2f", at[size]->ns[0] / at[size]->used);
    printf("\n");
}

/* Gives how long choosing by few or by many rules takes, measured by judging, in the library or in plain C. */
static double by_judging(const struct choice *choice, unsigned kind, unsigned which)
{
    return choice->ns[which][kind] / choice->ns[which][0];
}

/* Prints how long choosing takes, measured by judging, for one size of order. */
static void print_choices(const char *function, unsigned kind, unsigned shape)
{
    printf("%-12s", function);
    print_count(shapes[shape]);
    for (unsigned which = 0; which < 2; which++) {
        for (unsigned size = 0; size < SIZES; size++)
            printf(" %7.2f", by_judging(&choices[shape * SIZES + size], kind, which));
        printf("%s", which ? "\n" : "  ");
    }
}

/* Gives the size of book and of order at which choosing by the longer list takes longest, measured by judging, of books of at least so many words. */
static const struct choice *greatest_choice(unsigned least)
{
    const struct choice *greatest = NULL;
    for (unsigned i = 0; i < SHAPES * SIZES; i++)
        if (choices[i].size >= least && (!greatest || by_judging(&choices[i], KINDS - 1, 0) > by_judging(greatest, KINDS - 1, 0)))
            greatest = &choices[i];
    return greatest;
}

/* Prints the greatest time of choosing by the longer list, measured by judging, in the library: by books as large as a desk's, and by all. */
static void print_greatest_choices(void)
{
    const struct choice *desk = greatest_choice(DESK_SIZE), *any = greatest_choice(0);
    printf("Choosing by %d rules takes at most %.2f times as long as judging by books of %d words and more (some %u words used, %u nodes),\n"
        "and at most %.2f times by smaller ones (some %u words used, %u nodes), where the list is nearly as long as the book.\n", RULES,
        by_judging(desk, KINDS - 1, 0), DESK_SIZE, desk->size, desk->nodes, by_judging(any, KINDS - 1, 0), any->size, any->nodes);
}

/* Prints the head of a table that has two columns for each size of book. */
static void print_sizes_head(void)
{
    printf("%-12s %6s", "function", "nodes");
    for (unsigned i = 0; i < 2 * SIZES; i++)
        printf("%s %7u", i == SIZES ? "  " : "", sizes[i % SIZES]);
    printf("\n");
}

/* Prints how many ratios there are, how many are small and large, and the greatest. */
static void print_summary(void)
{
    unsigned near = 0, far = 0;
    const struct row *greatest = &rows[0];
    for (unsigned i = 0; i < rows_count; i++) {
        near += ratio(&rows[i]) <= 1.1;
        far += ratio(&rows[i]) > 1.5;
        if (ratio(&rows[i]) > ratio(greatest))
            greatest = &rows[i];
    }
    printf("%u ratios: %u at most 1.10, %u above 1.50; ", rows_count, near, far);
    printf("the greatest is %.2f (%s", ratio(greatest), greatest->function);
    if (greatest->used)
        printf(", %u words used", greatest->used);
    if (greatest->nodes)
        printf(", %u nodes", greatest->nodes);
    printf(")\n");
}

/* Prints the tables and the summary. */
static void print_all(void)
{
    static const char *const by_order[] = {"teach", "withdraw", "teach new", "withdraw new", "judge", "judge new", "choose 4", "choose 64"};
    static const char *const by_book[] = {"open", "check", "write_file", "read_file", "join", "join copy"};
    static const char *const without_book[] = {"read_text", "write_text", "subtree"};
    const unsigned ordered = sizeof by_order / sizeof by_order[0];
    printf("Least processor time of a call over %d rounds. An order that is new has codes that the book has hardly seen.\n", ROUNDS);
    printf("Joined are two books that share orders and parts, or a book and its copy, %d such pairs by turns; words are those of what a pair makes, in the mean.\n", PAIRS);
    printf("An image is chosen by %d or %d rules, for the order that is judged: trees of at most %d nodes, half of which have a top that stands in the order.\n\n",
        FEW_RULES, RULES, RULE_NODES);
    printf("%-12s %6s %6s %12s %12s %7s\n", "function", "words", "nodes", "library ns", "C ns", "ratio");
    for (unsigned i = 0; i < 6; i++)
        print_function(by_book[i]);
    for (unsigned i = 0; i < ordered; i++)
        print_function(by_order[i]);
    for (unsigned i = 0; i < 3; i++)
        print_function(without_book[i]);
    printf("\nHow the library's time grows with the book: against that at some %u words, and nanoseconds per word used.\n\n", sizes[0]);
    print_sizes_head();
    for (unsigned i = 0; i < 6; i++)
        print_growth(by_book[i], 0);
    for (unsigned i = 0; i < ordered; i++)
        for (unsigned shape = 0; shape < SHAPES; shape++)
            print_growth(by_order[i], shapes[shape]);
    printf("\nHow long choosing takes, measured by judging the same orders by the same books, %d by turns: in the library, and in plain C.\n\n", CROWD);
    print_sizes_head();
    for (unsigned kind = 1; kind < KINDS; kind++)
        for (unsigned shape = 0; shape < SHAPES; shape++)
            print_choices(by_order[ordered - KINDS + kind], kind, shape);
    printf("\n");
    print_greatest_choices();
    print_summary();
}

/* Reads the arguments, measures and prints. */
int main(int argc, char **argv)
{
    struct task *task = calloc(1, sizeof *task);
    struct task *crowd = calloc(CROWD, sizeof *crowd);
    struct pair *pairs = calloc(PAIRS, sizeof *pairs);
    demand(task != NULL && crowd != NULL && pairs != NULL && (task->copies = malloc(COPIES_BYTES)) != NULL, "no memory");
    task->k = 3;
    for (int i = 1; i < argc; i++) {
        if (!strcmp(argv[i], "indicative"))
            printf("run under an emulator: ratios are indicative\n");
        else
            task->k = (uint16_t)atoi(argv[i]);
    }
    demand(task->k >= 2 && task->k <= 6, "K is 2 to 6");
    measure_all(task, pairs);
    measure_crowds(task, crowd);
    printf("Books look %u deep. ", task->k);
    print_all();
    free(task->copies);
    free(pairs);
    free(crowd);
    free(task);
    return 0;
}
