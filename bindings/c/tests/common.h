/* What the test programs share: calls that are repeated where memory was refused, files, setups. */
#ifndef COMMON_H
#define COMMON_H

#include "../lockstep.h"

#include <stdio.h>

/* Ends the program with status 1 and these words. */
_Noreturn void die(const char *format, ...);

/* ---- Memory that is refused (memory.c) ---- */

/* The allocation of the library that is refused, counted from 0 from the last call of this on. */
void refuse_allocation(uint64_t number);

/* How many allocations the library has asked for since then. */
uint64_t allocations(void);

/* How many blocks the library holds. */
int64_t blocks_held(void);

/* That the library runs, so that allocations are its own. */
void enter_library(void);

/* That it has returned with this code. Gives the code. */
uint32_t leave_library(uint32_t code);

/* A call, made again where memory was refused: then nothing may have changed. */
#define ASK(call) \
  (enter_library(), leave_library(call) != LOCKSTEP_NO_MEMORY \
                        ? last_code() \
                        : (enter_library(), leave_library(call)))

/* The code of the last call. */
uint32_t last_code(void);

/* Makes a call that has to answer LOCKSTEP_OK. */
#define MUST(call) must(ASK(call), #call)
void must(uint32_t code, const char *call);

/* Frees what an object holds. */
void let_go(lockstep_object *any);

/* ---- Files ---- */

typedef struct {
  uint8_t *bytes;
  size_t len;
} text;

/* The bytes of a file, which the caller frees, with a zero after them. */
text read_file(const char *name);

/* Makes a setup of these files; `map` may be null. Where they have a fault it says which, prints
 * what the program prints of it, and gives false. */
bool read_setup(lockstep_object *setup, const char *map, char **rules, int count, FILE *out);

#endif
