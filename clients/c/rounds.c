/* rounds TOP PROFILE ITEMS ROUNDS [pack|unpack]: opens a session, packs the items of a file in one flow and unpacks their packets, and then packs or unpacks them all
 * again so many times, each time in a flow begun anew. bench/library.py counts its instructions. */
#include "rohcfn_c.h"
#include <stdio.h>
#include <stdlib.h>
#include <string.h>

enum { ITEMS = 4096, FILE_LIMIT = 1 << 22, HEADER = 520, ASKED = 128, PACKET = 1100 };

struct item {
  uint8_t header[HEADER], asked[ASKED], packed[PACKET];
  size_t header_bits, header_octets, asked_octets, packed_bits;
};

static struct item items[ITEMS];
static size_t count;

static char *octets_of(const char *name, size_t *length) {
  FILE *file = fopen(name, "rb");
  char *octets = malloc(FILE_LIMIT + 1);
  if (!file || !octets) exit(2);
  *length = fread(octets, 1, FILE_LIMIT, file);
  octets[*length] = 0;
  fclose(file);
  return octets;
}

static size_t read_hex(const char *text, uint8_t *octets, size_t room) {
  size_t read = 0;
  for (unsigned value; read < room && text[0] > ' ' && sscanf(text, "%2x", &value) == 1; text += 2) octets[read++] = (uint8_t)value;
  return read;
}

static void read_items(char *text) {
  for (char *line = strtok(text, "\n"); line && count < ITEMS; line = strtok(0, "\n")) {
    struct item *item = &items[count++];
    char *digits;
    item->header_bits = strtoul(line, &digits, 10);
    item->header_octets = read_hex(digits + 1, item->header, HEADER);
    for (char *value = strchr(line, ' '); value; value = strchr(value + 1, ' ')) {
      char *colon = strchr(value, ':');
      if (colon) item->asked_octets += read_hex(colon + 1, item->asked + item->asked_octets, ASKED - item->asked_octets);
    }
  }
}

static void pack_all(struct rohcfn *handle) {
  for (struct item *item = items; item < items + count; item++) {
    int32_t answer = rohcfn_pack(handle, 0, item->header, item->header_octets, item->header_bits, item->asked, item->asked_octets, item->packed, PACKET, &item->packed_bits);
    if (answer) fprintf(stderr, "rounds: pack answers %d\n", answer), exit(1);
  }
}

static void unpack_all(struct rohcfn *handle) {
  static uint8_t header[HEADER], asked[ASKED];
  struct rohcfn_counts counts;
  for (struct item *item = items; item < items + count; item++) {
    int32_t answer = rohcfn_unpack(handle, 0, item->packed, (item->packed_bits + 7) / 8, item->packed_bits, header, HEADER, asked, ASKED, &counts);
    int same = !answer && counts.header_bits == item->header_bits && counts.taken_bits == item->packed_bits && !memcmp(header, item->header, item->header_octets);
    if (!same) fprintf(stderr, "rounds: unpack answers %d\n", answer), exit(1);
  }
}

int main(int argc, char **argv) {
  if (argc < 5) return 2;
  size_t profile_octets, length, said;
  uint8_t line[256];
  char *profile = octets_of(argv[2], &profile_octets), *text = octets_of(argv[3], &length);
  struct rohcfn handle = {0};
  read_items(text);
  int32_t answer = rohcfn_open((const uint8_t *)argv[1], strlen(argv[1]), (const uint8_t *)profile, profile_octets, (const uint8_t *)"", 0, 1, &handle, line, sizeof line, &said);
  if (answer) return 1;
  pack_all(&handle), unpack_all(&handle);
  for (long round = atol(argv[4]); round > 0 && argc > 5; round--) {
    rohcfn_reset(&handle, 0);
    if (strcmp(argv[5], "pack") == 0) pack_all(&handle);
    else unpack_all(&handle);
  }
  printf("%zu\n", count);
  rohcfn_close(&handle);
  free(profile), free(text);
  return 0;
}
