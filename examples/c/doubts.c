/*
 * Prints what a book of built orders doubts: lets an empty book judge an order form; then teaches a form to each of two
 * books, joins the one to the other, and lets that judge three new forms, first with books that look 3 deep, then with
 * books that look 2 deep. Each form judged is printed with a mark at the line that is doubted, and then with what the
 * book knows instead: how each neighbour in the book of that which is unknown first differs from the form. Of a form
 * that passes it prints the image that it is built with, by its crystal.
 * It is linked with libofb.a. It ends with status 0, or with 1 after a refusal or if its output cannot be written.
 */
#include <stdio.h>
#include <stdlib.h>
#include <string.h>
#include "ofb.h"

/*
 * The longest order has 64 options of two words each; its text has at most 8 bytes for each, as in "12 9999\n". The
 * lowest level is 12.
 */
enum { BOOK_WORDS = 2000, OPTIONS = 64, ORDER_WORDS = 2 * OPTIONS, TEXT_BYTES = 8 * OPTIONS, LOWEST = 12 };

static const char form_a[] = "0 1000\n1 2000\n2 0010\n1 3000\n2 3001\n";
static const char form_b[] = "0 1000\n1 2000\n2 0016\n1 3000\n2 3001\n2 3002\n";
static const char form_c[] = "0 1000\n1 2000\n2 0010\n1 3000\n2 3001\n2 3002\n";
static const char form_d[] = "0 1000\n1 2000\n2 0010\n1 3000\n";
static const char form_e[] = "0 3000\n1 3001\n";
/* Two rules, of one option each: 0010, the plain crystal, is built with image 7, and 0016, the oven, with 8. */
static const uint16_t crystals[] = {2, 7, 1, 10, 0, 8, 1, 16, 0};
static uint16_t desk[BOOK_WORDS], workshop[BOOK_WORDS];

/* What the number of an answer means, for the calls made here. */
static const char *meaning(unsigned number)
{
    switch (number) {
    case OFB_NO_ORDER: return "the words are not one order";
    case OFB_TOO_LARGE: return "the order is too large or too deep";
    case OFB_K_OUTSIDE: return "a book cannot look this deep";
    case OFB_BOOK_SIZE: return "a book cannot have this many words";
    case OFB_NOT_IN_FORM: return "the words are no book in form";
    case OFB_NO_ROOM: return "the book has too little room";
    case OFB_TOO_MANY: return "the book cannot count further";
    case OFB_NOT_AGREEING: return "a book does not agree with itself";
    case OFB_NO_FORM: return "the text is no order form";
    case OFB_SHORT_OUTPUT: return "the output is too short";
    case OFB_OTHER_K: return "the two books look differently deep";
    case OFB_TOP_UNKNOWN: return "no order taught begins like this one";
    case OFB_LOW_UNKNOWN: return "this option, with all that stands below it, is in no order taught";
    case OFB_MIDDLE_UNKNOWN: return "this option, with what the book sees below it, is in no order taught";
    case OFB_NO_IMAGE: return "no rule fits the order";
    case OFB_TWO_IMAGES: return "two rules that fit the order name different images";
    case OFB_NO_RULES: return "the words are no list of rules for a book that looks this deep";
    default: return "this program does not know the number";
    }
}

/* Says which call was refused and why, and ends the program. */
static void refused(const char *call, unsigned number, unsigned line)
{
    fprintf(stderr, "%s: %u, line %u: %s\n", call, number, line, meaning(number));
    exit(1);
}

/* Ends the program if a call was refused. */
static void need_done(const char *call, ofb_answer answer)
{
    if (answer.number != OFB_DONE) refused(call, answer.number, answer.line);
}

/* Reads the text of a form to the words of its order, and gives how many these are. */
static size_t read_form(const char *text, uint16_t order[ORDER_WORDS])
{
    ofb_answer answer = ofb_read_text((const uint8_t *)text, strlen(text), order, ORDER_WORDS);
    need_done("ofb_read_text", answer);
    return answer.written;
}

/* Makes an empty book that looks k deep, and teaches it a form. */
static void open_with(uint16_t book[BOOK_WORDS], uint16_t k, const char *text)
{
    uint16_t order[ORDER_WORDS];
    size_t words = read_form(text, order);
    need_done("ofb_open", ofb_open(book, BOOK_WORDS, k));
    need_done("ofb_teach", ofb_teach(book, BOOK_WORDS, order, words));
}

/* Finds the level of each line of an order; `left` is how many lines are still to come on each level. */
static void find_levels(const uint16_t *order, size_t words, unsigned levels[OPTIONS])
{
    unsigned left[LOWEST + 2] = {1}, level = 0;
    for (size_t i = 0; i < words / 2; i++) {
        while (left[level] == 0) level--;
        left[level]--;
        levels[i] = level;
        left[++level] = order[2 * i + 1];
    }
}

/* How many levels, at most, that which is unknown has below its first line. */
static unsigned levels_below(unsigned number)
{
    switch (number) {
    case OFB_TOP_UNKNOWN: return desk[0] - 2;
    case OFB_MIDDLE_UNKNOWN: return desk[0] - 1;
    default: return LOWEST;
    }
}

/*
 * The line of a place of that which is unknown. Its options, of two places each, are the lines from the marked one on
 * that stand on its levels.
 */
static unsigned line_of(const uint16_t *order, size_t words, ofb_judged verdict, unsigned place)
{
    unsigned levels[OPTIONS], line = verdict.line, option = (place + 1) / 2;
    find_levels(order, words, levels);
    unsigned lowest = levels[line - 1] + levels_below(verdict.number);
    while (levels[line - 1] > lowest || --option > 0) line++;
    return line;
}

/* An entry of the desk's book, counted from 0 among the tops, the low parts or the middle parts, as the number says. */
static const uint16_t *entry_of(unsigned number, unsigned entry)
{
    const uint16_t *sizes = desk + 3, *at = desk + 7;
    for (unsigned before = OFB_TOP_UNKNOWN; before <= number; before++) entry += *sizes++;
    while (entry-- > 0) at += 2 + 2 * at[0];
    return at;
}

/* How many options there are, 0 to 8, as it is said: a figure, or the word for none. */
static const char *figure(unsigned options, const char *none)
{
    static const char *const figures[] = {"1", "2", "3", "4", "5", "6", "7", "8"};
    return options == 0 ? none : figures[options - 1];
}

/* Prints how an entry of the desk's book differs from a form at the place where it first does. */
static void print_neighbour(const uint16_t *order, size_t words, ofb_judged verdict, unsigned entry, unsigned place)
{
    unsigned line = line_of(order, words, verdict, place);
    unsigned code = order[2 * line - 2], options = order[2 * line - 1];
    unsigned known = entry_of(verdict.number, entry)[1 + place];
    printf("The book knows one that first differs at line %u: ", line);
    if (place % 2 == 1) {
        printf("%04u in place of %04u.\n", known, code);
    } else {
        printf("%s option%s right below %04u", figure(known, "no"), known > 1 ? "s" : "", code);
        printf(" in place of %s.\n", figure(options, "none"));
    }
}

/*
 * Prints how the neighbours in the book of that which is unknown differ from a form: the last one below it, and the
 * first above.
 */
static void print_neighbours(const uint16_t *order, size_t words, ofb_judged verdict)
{
    unsigned below = verdict.place_below, above = verdict.place_above;
    if (below != 0) print_neighbour(order, words, verdict, verdict.below - 1, below);
    if (above != 0) print_neighbour(order, words, verdict, verdict.below, above);
    if (below == 0 && above == 0) puts("The book knows none to compare it with.");
}

/* Prints the image that an order is built with, which the desk's book passes. */
static void print_image(const uint16_t *order, size_t words)
{
    ofb_image choice = ofb_choose(desk, BOOK_WORDS, order, words, crystals, sizeof crystals / sizeof crystals[0]);
    if (choice.number != OFB_DONE) refused("ofb_choose", choice.number, choice.line);
    printf("It is built with image %u.\n", (unsigned)choice.image);
}

/*
 * Lets the desk's book judge a form, and prints the form with a mark at the line that is doubted, and then what the
 * book knows instead, or the image.
 */
static void judge(const char *name, const char *text)
{
    uint16_t order[ORDER_WORDS];
    size_t words = read_form(text, order);
    ofb_judged verdict = ofb_judge(desk, BOOK_WORDS, order, words);
    int passes = verdict.number == OFB_DONE;
    if (!passes && verdict.number < OFB_TOP_UNKNOWN) refused("ofb_judge", verdict.number, verdict.line);
    uint8_t out[TEXT_BYTES];
    ofb_answer answer = ofb_write_text(order, words, out, TEXT_BYTES);
    need_done("ofb_write_text", answer);
    printf("\nForm %s %s:\n", name, passes ? "passes" : "is doubted");
    for (uint32_t i = 0, line = 1; i < answer.written; i++) {
        if (out[i] == '\n' && line++ == verdict.line) printf("  <-- %u: %s", verdict.number, meaning(verdict.number));
        putchar(out[i]);
    }
    if (passes) print_image(order, words);
    else print_neighbours(order, words, verdict);
}

/* Prints how deep the desk's book looks, and how much it holds. */
static void print_head(void)
{
    printf("A book that looks %u deep: %u teachings, %u of %u words used.\n", desk[0], desk[2], desk[1], BOOK_WORDS);
}

/* Lets the desk's book judge form A while it is empty. */
static void try_empty(uint16_t k)
{
    need_done("ofb_open", ofb_open(desk, BOOK_WORDS, k));
    print_head();
    judge("A", form_a);
}

/*
 * Teaches form A to the desk's book and form B to the workshop's, joins this to that, and lets the desk's judge C, D
 * and E.
 */
static void try_book(uint16_t k)
{
    open_with(desk, k, form_a);
    open_with(workshop, k, form_b);
    need_done("ofb_join", ofb_join(desk, BOOK_WORDS, workshop, BOOK_WORDS));
    print_head();
    judge("C", form_c);
    judge("D", form_d);
    judge("E", form_e);
}

/* Tries an empty book, and then the book that is taught as it looks 3 deep and 2 deep. */
int main(void)
{
    try_empty(3);
    putchar('\n');
    try_book(3);
    putchar('\n');
    try_book(2);
    return fflush(stdout) != 0 || ferror(stdout);
}
