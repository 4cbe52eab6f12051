/* Hostile calls over guard pages: what the tests of each topic share. */
#ifndef BOUNDARY_H
#define BOUNDARY_H

#include <stddef.h>
#include <stdint.h>
#include <string.h>

#include "av1ts.h"

/* ---- random numbers, from the seed (splitmix64) */
uint64_t next(void);
size_t below(size_t limit); /* below limit, which is not 0 */
int one_in(size_t n);
size_t length_up_to(size_t most); /* short ones as likely as long ones */
uint8_t byte(void);               /* 0 to 3 as likely as any other */

/* ---- buffers. Each slot is a region of its own between two pages that may not be touched. A buffer is lent so that it begins at the page before
 * (side 0) or ends at the page behind (side 1). Where it has no bytes, it is now and then a null pointer. */
enum { SLOTS = 8 };
const void *give(int slot, int side, const void *bytes, size_t size); /* an input: these bytes, read-only from then on */
void *lend(int slot, int side, size_t size);                          /* an output, filled with a pattern that depends on the slot alone */
int kept(int slot, size_t from);                                      /* an output is as it was from a place on, and so is what stands around it */
int cleared(int slot);                                                /* an output is zeros throughout, and what stands around it is as it was */
uint64_t content(int slot);                                           /* a checksum of an output */

/* ---- cases */
void calls(const char *function); /* the function that is called next: said where the process is stopped by a signal */
void expect(int holds, const char *what);
int all_zero(const uint64_t *fields, size_t count);

/* Whether a number is one of a list, which ends in 0. */
int is_one_of(uint64_t number, const uint64_t *list);

/* ---- bytes to try */
enum { MOST_MADE = 4096 };
size_t make_obus(uint8_t *obus, size_t *lengths, size_t *count); /* a list of OBUs, of which most are accepted as a unit */
size_t make_unit(uint8_t *unit);                                 /* a carried unit, damaged more often than not */
size_t damage(uint8_t *bytes, size_t length, size_t room);       /* some bytes changed, taken out or put in */
size_t make_segment(uint8_t *segment, int draft);                /* a part of the sample, or of it as a draft recording, damaged more often than not */

/* ---- topics: one case each */
void try_payload(void);
void try_unit(void);
void try_walk(void);
void try_salvage(void);
void try_descriptor(void);
void try_segment(void);
void try_replay(void);
void try_mastering(void);
void try_queue(void);
void try_sheet(void);

/* once */
void try_null_pointers(void);
void try_limits(void);
void try_queue_limits(void);

/* The sample's packets, for segments. */
extern const uint8_t *sample;
extern size_t sample_length;

#endif
