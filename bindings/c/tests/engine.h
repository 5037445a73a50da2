/* What the commands of `engine` share. */
#ifndef ENGINE_H
#define ENGINE_H

#include "common.h"

/* ---- Lines and words of drills and scripts (words.c) ---- */

typedef struct {
  const uint8_t *at, *end;
} words;

/* The next word of a line, as its length; 0 at the end of the line. */
size_t next_word(words *line, const uint8_t **word);

/* The next line that counts; false at the end of the text. */
bool next_line(words *whole, words *line);

bool is_word(const uint8_t *word, size_t len, const char *other);

/* A number of which each digit is known to the base. */
uint64_t digits(const uint8_t *word, size_t len, uint32_t base);

uint32_t next_number(words *line);

/* The orders with which a line ends. */
lockstep_play read_orders(words *line);

/* Numbers of four and eight bytes. */
uint32_t number_at(const uint8_t *bytes);
uint64_t long_at(const uint8_t *bytes);

/* ---- Commands ---- */

/* The head of a world, a peer or a server; and what the program prints of it at a line's end. */
lockstep_head head_of(lockstep_object *any);
void print_summary(lockstep_object *any, FILE *out);

#define MOST_RULES 64

typedef struct {
  const char *map, *script, *file, *from, *to, *record, *kind, *client;
  uint32_t every, bots;
  char *rules[MOST_RULES];
  int count;
} request;

/* A match of a drill (match.c). */
int answer_drill(request *it, lockstep_object *setup, FILE *out);

#endif
