/*
 * A plain C implementation of the twelve functions of ofb.h, with the prefix plain_, for comparison by bench/run in answers and speed.
 * Each takes, answers and leaves what its namesake in ofb.h does. It is not part of the product.
 */
#ifndef PLAIN_H
#define PLAIN_H

#include "ofb.h"

ofb_answer plain_open(uint16_t *book, size_t words, uint16_t k);
ofb_answer plain_teach(uint16_t *book, size_t words, const uint16_t *order, size_t order_words);
ofb_answer plain_withdraw(uint16_t *book, size_t words, const uint16_t *order, size_t order_words);
ofb_answer plain_join(uint16_t *book, size_t words, const uint16_t *other, size_t other_words);
ofb_judged plain_judge(const uint16_t *book, size_t words, const uint16_t *order, size_t order_words);
ofb_image plain_choose(const uint16_t *book, size_t words, const uint16_t *order, size_t order_words, const uint16_t *rules, size_t rule_words);
ofb_answer plain_check(const uint16_t *book, size_t words);
ofb_answer plain_write_file(const uint16_t *book, size_t words, uint8_t *out, size_t bytes);
ofb_answer plain_read_file(const uint8_t *file, size_t bytes, uint16_t *book, size_t words);
ofb_answer plain_read_text(const uint8_t *text, size_t bytes, uint16_t *out, size_t words);
ofb_answer plain_write_text(const uint16_t *order, size_t words, uint8_t *out, size_t bytes);
ofb_part plain_subtree(const uint16_t *order, size_t words, size_t line);

#endif
