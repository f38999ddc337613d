/* threads: a handle that goes from thread to thread answers as one that stays, and so does each thread's own. Packets are reckoned by hand: of a number that goes up by one
 * the low four bits are sent. */
#include "rohcfn_c.h"
#include <pthread.h>
#include <stdio.h>
#include <stdlib.h>
#include <string.h>

enum { THREADS = 4, ROUNDS = 250 };

#define OCTETS(text) (const uint8_t *)(text), sizeof(text) - 1
#define CHECK(holds) do { if (!(holds)) { fprintf(stderr, "threads: line %d: %s\n", __LINE__, #holds); exit(1); } } while (0)

static const char tick[] =
    "tick\n{\n  UNCOMPRESSED { sn [16]; rest [8]; }\n  DEFAULT { rest =:= irregular(8); }\n  COMPRESSED few { d =:= '1' [1]; sn =:= lsb(4, 0) [4]; rest [8]; }\n"
    "  COMPRESSED full { d =:= '0' [1]; sn =:= irregular(16) [16]; rest [8]; }\n}\n";
static pthread_mutex_t turn = PTHREAD_MUTEX_INITIALIZER;
static struct rohcfn shared;
static unsigned last;

static void open_tick(struct rohcfn *handle) {
  uint8_t line[64];
  size_t said;
  CHECK(rohcfn_open(OCTETS("tick"), OCTETS(tick), OCTETS(""), 1, handle, line, sizeof line, &said) == ROHCFN_DONE);
}

/* The packet of a number and an octet: all bits of the first one, after '0', and the low four of each later one, after '1'. */
static size_t reckoned(unsigned number, unsigned rest, uint8_t packet[4]) {
  size_t bits = number == 1 ? 25 : 13;
  uint32_t value = (number == 1 ? number << 8 | rest : 1u << 12 | (number & 15) << 8 | rest) << (32 - bits);
  for (int at = 0; at < 4; at++) packet[at] = (uint8_t)(value >> (24 - 8 * at));
  return bits;
}

/* Packs and unpacks the next number. */
static void step(struct rohcfn *handle, unsigned number) {
  uint8_t header[3] = {(uint8_t)(number >> 8), (uint8_t)number, (uint8_t)('a' + number % 26)}, due[4], packet[8], back[8], values[1];
  struct rohcfn_counts counts;
  size_t bits, wanted = reckoned(number, header[2], due);
  CHECK(rohcfn_pack(handle, 0, header, 3, 24, OCTETS(""), packet, sizeof packet, &bits) == ROHCFN_DONE);
  CHECK(bits == wanted && memcmp(packet, due, (bits + 7) / 8) == 0);
  CHECK(rohcfn_unpack(handle, 0, packet, (bits + 7) / 8, bits, back, sizeof back, values, sizeof values, &counts) == ROHCFN_DONE);
  CHECK(counts.header_bits == 24 && counts.taken_bits == bits && memcmp(back, header, 3) == 0);
}

/* Goes on with a handle that another thread opened, and takes its turns at the one that all have. */
static void *work(void *own) {
  for (unsigned round = 1; round <= ROUNDS; round++) {
    step(own, round);
    pthread_mutex_lock(&turn);
    step(&shared, ++last);
    pthread_mutex_unlock(&turn);
  }
  rohcfn_close(own);
  return NULL;
}

int main(void) {
  pthread_t threads[THREADS];
  struct rohcfn own[THREADS] = {{0}};
  open_tick(&shared);
  for (int at = 0; at < THREADS; at++) open_tick(&own[at]);
  for (int at = 0; at < THREADS; at++) CHECK(pthread_create(&threads[at], NULL, work, &own[at]) == 0);
  for (int at = 0; at < THREADS; at++) CHECK(pthread_join(threads[at], NULL) == 0);
  CHECK(last == THREADS * ROUNDS);
  rohcfn_close(&shared);
  puts("threads: ok");
  return 0;
}
