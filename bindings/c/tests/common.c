#include "common.h"

#include <stdarg.h>
#include <stdlib.h>

_Noreturn void die(const char *format, ...) {
  va_list words;
  va_start(words, format);
  vfprintf(stderr, format, words);
  va_end(words);
  fputc('\n', stderr);
  exit(1);
}

void must(uint32_t code, const char *call) {
  if (code != LOCKSTEP_OK) die("%s: code %u", call, code);
}

void let_go(lockstep_object *any) {
  enter_library();
  lockstep_free(any);
  leave_library(LOCKSTEP_OK);
}

text read_file(const char *name) {
  text whole = {NULL, 0};
  FILE *file = fopen(name, "rb");
  long size;
  if (!file || fseek(file, 0, SEEK_END) || (size = ftell(file)) < 0) die("no file %s", name);
  rewind(file);
  whole.len = (size_t)size;
  whole.bytes = malloc(whole.len + 1);
  if (!whole.bytes || fread(whole.bytes, 1, whole.len, file) != whole.len) die("read %s", name);
  whole.bytes[whole.len] = 0;
  fclose(file);
  return whole;
}

static void add_file(lockstep_object *setup, uint32_t what, const char *name) {
  text file = read_file(name);
  MUST(lockstep_setup_add(setup, what, file.bytes, file.len));
  free(file.bytes);
}

bool read_setup(lockstep_object *setup, const char *map, char **rules, int count, FILE *out) {
  lockstep_fault at = {0, 0, 0};
  MUST(lockstep_setup_create(setup));
  for (int i = 0; i < count; i++) add_file(setup, LOCKSTEP_RULES, rules[i]);
  if (map) add_file(setup, LOCKSTEP_MAP, map);
  if (ASK(lockstep_setup_read(setup, &at)) == LOCKSTEP_OK) return true;
  if (last_code() != LOCKSTEP_FAULT) die("setup_read: code %u", last_code());
  fprintf(out, "refused %s %llu %s\n", at.file < (uint32_t)count ? rules[at.file] : map,
          (unsigned long long)at.place, lockstep_cause(at.cause));
  let_go(setup);
  return false;
}
