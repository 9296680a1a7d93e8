/*
 * The tables of the two implementations, numbers that look random, and orders grown by them.
 */
#include "inputs.h"

#include "plain.h"

const struct implementation library = {
    "library", ofb_open, ofb_teach, ofb_withdraw, ofb_join, ofb_judge, ofb_choose, ofb_check,
    ofb_write_file, ofb_read_file, ofb_read_text, ofb_write_text, ofb_subtree
};

const struct implementation plain = {
    "C", plain_open, plain_teach, plain_withdraw, plain_join, plain_judge, plain_choose, plain_check,
    plain_write_file, plain_read_file, plain_read_text, plain_write_text, plain_subtree
};

/* A tree being grown. A node knows the child of the top above it, its first and last child, and its next sibling; 0 is none. */
struct growth {
    unsigned nodes;
    struct { unsigned depth, group, children, first, last, next; uint16_t code; } node[ORDER_ROOM / 2];
};

/* Gives the next number by the splitmix64 method. */
uint64_t dice_next(struct dice *dice)
{
    uint64_t z = dice->state += 0x9e3779b97f4a7c15u;
    z = (z ^ (z >> 30)) * 0xbf58476d1ce4e5b9u;
    z = (z ^ (z >> 27)) * 0x94d049bb133111ebu;
    return z ^ (z >> 31);
}

/* Gives a number below the limit. */
unsigned dice_below(struct dice *dice, unsigned limit)
{
    return (unsigned)((dice_next(dice) >> 32) * limit >> 32);
}

/* Says whether a throw of so many in 100 falls. */
int dice_percent(struct dice *dice, unsigned percent)
{
    return dice_below(dice, 100) < percent;
}

/* Chooses a node that may have one more child, or gives the number of nodes where none is found. */
static unsigned choose_parent(const struct growth *tree, struct dice *dice, const struct style *style)
{
    unsigned start = dice_percent(dice, style->stretch) ? tree->nodes - 1 : dice_below(dice, tree->nodes);
    for (unsigned i = 0; i < tree->nodes; i++) {
        unsigned at = (start + tree->nodes - i) % tree->nodes;
        if (tree->node[at].depth < style->depth && tree->node[at].children < style->children)
            return at;
    }
    return tree->nodes;
}

/* Chooses the code of a node by its depth and, below the top's children, by that one of them which it stands below. */
static uint16_t choose_code(struct dice *dice, const struct style *style, unsigned depth, unsigned group)
{
    if (style->alphabet)
        return (uint16_t)(dice_percent(dice, 2) ? 9999 : 1 + dice_below(dice, style->alphabet));
    if (depth == 0)
        return (uint16_t)(1000 + dice_below(dice, style->tops));
    if (depth == 1)
        return (uint16_t)(2000 + group);
    return (uint16_t)(3000 + 10 * group + dice_below(dice, style->options));
}

/* Adds a node as the last child of another; the first node is the top. */
static void add_node(struct growth *tree, struct dice *dice, const struct style *style, unsigned parent)
{
    unsigned at = tree->nodes++;
    unsigned depth = at ? tree->node[parent].depth + 1 : 0;
    unsigned group = depth > 1 ? tree->node[parent].group : style->alphabet ? 0 : dice_below(dice, style->groups);
    tree->node[at].depth = depth;
    tree->node[at].group = group;
    tree->node[at].children = tree->node[at].first = tree->node[at].last = tree->node[at].next = 0;
    tree->node[at].code = choose_code(dice, style, depth, group);
    if (at == 0)
        return;
    if (tree->node[parent].children++)
        tree->node[tree->node[parent].last].next = at;
    else
        tree->node[parent].first = at;
    tree->node[parent].last = at;
}

/* Writes a node and what stands below it in preorder. */
static void put_node(struct order *order, const struct growth *tree, unsigned at)
{
    order->at[order->words++] = tree->node[at].code;
    order->at[order->words++] = (uint16_t)tree->node[at].children;
    for (unsigned child = tree->node[at].first; child; child = tree->node[child].next)
        put_node(order, tree, child);
}

/* Grows a tree node by node and writes it as an order. */
void order_grow(struct order *order, struct dice *dice, unsigned nodes, const struct style *style)
{
    struct growth tree;
    tree.nodes = 0;
    add_node(&tree, dice, style, 0);
    while (tree.nodes < nodes) {
        unsigned parent = choose_parent(&tree, dice, style);
        if (parent == tree.nodes)
            break;
        add_node(&tree, dice, style, parent);
    }
    order->words = 0;
    put_node(order, &tree, 0);
}
