#include "engine.h"

static bool is_blank(uint8_t byte) { return byte == ' ' || byte == '\t' || byte == '\r'; }

size_t next_word(words *line, const uint8_t **word) {
  while (line->at < line->end && is_blank(*line->at)) line->at++;
  *word = line->at;
  while (line->at < line->end && !is_blank(*line->at)) line->at++;
  return (size_t)(line->at - *word);
}

bool next_line(words *whole, words *line) {
  while (whole->at < whole->end) {
    const uint8_t *word, *begin = whole->at, *end = begin;
    words copy;
    while (end < whole->end && *end != '\n') end++;
    whole->at = end < whole->end ? end + 1 : end;
    line->at = begin;
    line->end = end;
    copy = *line;
    if (next_word(&copy, &word) > 0 && *word != '#') return true;
  }
  return false;
}

bool is_word(const uint8_t *word, size_t len, const char *other) {
  return len == strlen(other) && !memcmp(word, other, len);
}

uint64_t digits(const uint8_t *word, size_t len, uint32_t base) {
  uint64_t number = 0;
  for (size_t i = 0; i < len; i++) {
    uint8_t digit = word[i] <= '9' ? (uint8_t)(word[i] - '0') : (uint8_t)(word[i] - 'a' + 10);
    if (digit >= base) die("no number: %.*s", (int)len, (const char *)word);
    number = number * base + digit;
  }
  return number;
}

uint32_t next_number(words *line) {
  const uint8_t *word;
  size_t len = next_word(line, &word);
  if (!len) die("a number is missing");
  return (uint32_t)digits(word, len, 10);
}

/* Appends the order whose word is given. */
static void read_order(const uint8_t *word, size_t len, words *line, lockstep_play *play) {
  bool queued = len > 0 && word[len - 1] == '+', fits;
  uint32_t a = next_number(line), b, c;
  if (queued) len--;
  if (is_word(word, len, "stop")) {
    fits = lockstep_stop(play, a);
  } else if (is_word(word, len, "cancel")) {
    fits = lockstep_cancel(play, a);
  } else if (is_word(word, len, "pace")) {
    fits = lockstep_pace(play, (uint8_t)a);
  } else {
    b = next_number(line);
    if (is_word(word, len, "attack")) {
      fits = lockstep_attack(play, a, b, queued);
    } else if (is_word(word, len, "produce")) {
      fits = lockstep_produce(play, a, (uint16_t)b);
    } else if (is_word(word, len, "donate")) {
      fits = lockstep_donate(play, (uint8_t)a, b);
    } else {
      c = next_number(line);
      if (is_word(word, len, "move")) {
        fits = lockstep_move(play, a, (uint8_t)b, (uint8_t)c, queued);
      } else if (is_word(word, len, "harvest")) {
        fits = lockstep_harvest(play, a, (uint8_t)b, (uint8_t)c, queued);
      } else {
        die("no order: %.*s", (int)len, (const char *)word);
      }
    }
  }
  if (!fits) die("more than 16 orders");
}

lockstep_play read_orders(words *line) {
  lockstep_play play = LOCKSTEP_PLAY;
  const uint8_t *word;
  size_t len;
  while ((len = next_word(line, &word)) > 0) {
    if (!is_word(word, len, ";")) read_order(word, len, line, &play);
  }
  return play;
}

uint32_t number_at(const uint8_t *bytes) {
  return bytes[0] | (uint32_t)bytes[1] << 8 | (uint32_t)bytes[2] << 16 | (uint32_t)bytes[3] << 24;
}

uint64_t long_at(const uint8_t *bytes) {
  return number_at(bytes) | (uint64_t)number_at(bytes + 4) << 32;
}
