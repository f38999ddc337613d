/* refused: the n-th allocation is refused, for each n. The call answers ROHCFN_NO_MEMORY and leaves the flow as it was, or does without; and nothing leaks.
 * It is linked with -Wl,--wrap=malloc,--wrap=realloc. */
#include "rohcfn_c.h"
#include <stdio.h>
#include <stdlib.h>
#include <string.h>

#define OCTETS(text) (const uint8_t *)(text), sizeof(text) - 1
#define CHECK(holds) do { if (!(holds)) { fprintf(stderr, "refused: line %d, at %ld: %s\n", __LINE__, place, #holds); exit(1); } } while (0)

void *__real_malloc(size_t size);
void *__real_realloc(void *at, size_t size);
void *__wrap_malloc(size_t size);
void *__wrap_realloc(void *at, size_t size);

static long left = -1, place;

static int refuses(void) { return left >= 0 && left-- == 0; }

void *__wrap_malloc(size_t size) { return refuses() ? NULL : __real_malloc(size); }

void *__wrap_realloc(void *at, size_t size) { return refuses() ? NULL : __real_realloc(at, size); }

/* A number that counts by one, of which the low bits are sent: so packets depend on the context. */
static const char tick[] =
    "tick\n{\n  UNCOMPRESSED { sn [16]; rest [8]; }\n  DEFAULT { rest =:= irregular(8); }\n  COMPRESSED few { d =:= '1' [1]; sn =:= lsb(4, 0) [4]; rest [8]; }\n"
    "  COMPRESSED full { d =:= '0' [1]; sn =:= irregular(16) [16]; rest [8]; }\n}\n";
static uint8_t line[256], out[64], values[8];
static size_t said, bits;
static struct rohcfn_counts counts;

static int32_t open_tick(struct rohcfn *handle) { return rohcfn_open(OCTETS("tick"), OCTETS(tick), OCTETS(""), 2, handle, line, sizeof line, &said); }

static int32_t pack(struct rohcfn *handle, const char *header) { return rohcfn_pack(handle, 0, (const uint8_t *)header, 3, 24, OCTETS(""), out, sizeof out, &bits); }

/* Refuses each allocation of open in turn. How many were refused. */
static long opening(void) {
  long refused = 0;
  for (place = 0;; place++) {
    struct rohcfn handle = {0};
    left = place;
    int32_t answer = open_tick(&handle);
    int over = left >= 0;
    left = -1;
    CHECK(over ? answer == ROHCFN_DONE && handle.at : answer == ROHCFN_NO_MEMORY && !handle.at);
    rohcfn_close(&handle);
    if (over) return refused;
    refused++;
  }
}

/* Whether a call that was refused memory, unless its allocations were over, answers so, or did without. Counts the first. */
static int is_answer(int32_t answer, int over, long *refused) {
  if (answer == ROHCFN_NO_MEMORY) ++*refused;
  return answer == ROHCFN_DONE || (!over && answer == ROHCFN_NO_MEMORY);
}

/* Refuses each allocation of a second packet in turn, at both ends. How many calls were refused. */
static long packing(uint8_t lost) {
  long refused = 0;
  for (place = 0;; place++) {
    struct rohcfn handle = {0};
    CHECK(open_tick(&handle) == ROHCFN_DONE && (!lost || rohcfn_robust(&handle, 0, lost) == ROHCFN_DONE));
    CHECK(pack(&handle, "\0\1A") == ROHCFN_DONE && rohcfn_unpack(&handle, 0, out, (bits + 7) / 8, bits, out + 32, 32, values, 8, &counts) == ROHCFN_DONE);
    left = place;
    int32_t answer = pack(&handle, "\0\2B");
    int over = left >= 0;
    left = -1;
    CHECK(is_answer(answer, over, &refused));
    if (answer) CHECK(pack(&handle, "\0\2B") == ROHCFN_DONE);
    CHECK(lost || bits == 13);
    uint8_t packet[64];
    size_t count = bits;
    memcpy(packet, out, sizeof packet);
    left = place;
    answer = rohcfn_unpack(&handle, 0, packet, (count + 7) / 8, count, out, 32, values, 8, &counts);
    int both = left >= 0;
    left = -1;
    CHECK(is_answer(answer, both, &refused));
    if (answer) CHECK(rohcfn_unpack(&handle, 0, packet, (count + 7) / 8, count, out, 32, values, 8, &counts) == ROHCFN_DONE);
    CHECK(counts.header_bits == 24 && counts.taken_bits == count && !memcmp(out, "\0\2B", 3));
    rohcfn_close(&handle);
    if (over && both) return refused;
  }
}

int main(void) {
  long opened = opening(), plain = packing(0), robust = packing(2);
  if (opened < 10 || plain < 2 || robust < 2) {
    fprintf(stderr, "refused: too few allocations: %ld, %ld, %ld\n", opened, plain, robust);
    return 1;
  }
  puts("refused: ok");
  return 0;
}
