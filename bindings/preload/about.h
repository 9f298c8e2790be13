/* What a log says of its program: entries `key=value`, each ended by a NUL. Its first answers of the oracle have them.
 */
#ifndef DETIO_ABOUT_H
#define DETIO_ABOUT_H

#include <stdbool.h>
#include <stddef.h>
#include <stdint.h>

enum { ABOUT_ROOM = 4 << 20, ABOUT_PIECE = 32000, HEAD = 24 };

typedef struct {
  char *text;
  size_t length, room;
  bool full;  /* an entry had no room */
} entries;

void add_entry(entries *, const char *key, const char *value);
/* The value of the first entry of this key at or after `*at`, which is put after it; NULL: there is none. */
const char *next_value(const entries *, const char *key, size_t *at);
const char *first_value(const entries *, const char *key);

/* The record of version 2 at this place of a log, if it is whole: its length, or 0. */
size_t record_at(const uint8_t *log, size_t length, size_t at);
/* The entries in a log: whether they are there as a whole. */
bool about_in_log(const uint8_t *log, size_t length, entries *);

/* Where two lists of entries differ first, among those of these keys (ended by NULL): false where they do not. `*one`
 * and
 * `*other` are the entries there, or NULL after the last. Variables may stand in another order. */
bool first_difference(const entries *, const entries *, const char *const keys[], const char **one, const char **other);

/* log.c: the entries that were handed over for this start alone, and those of the program. */
const entries *about_start(void);
const entries *about_program(void);
/* For the program that this one goes on as: where in the log its records begin; and what is open. */
void add_earlier(entries *);
void add_kept(entries *);

#endif
