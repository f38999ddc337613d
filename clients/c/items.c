/* items TOP PROFILE ITEMS: packs each item of a file of lines `BITS:HEX NAME=BITS:HEX ..`, unpacks its packet, and prints how many bits an item and a packet have.
 * Both ends are of one flow, so the contexts go on together. The status is 1 where anything is refused or differs. */
#include "rohcfn_c.h"
#include <stdio.h>
#include <stdlib.h>
#include <string.h>

enum { LINE = 512, FILE_LIMIT = 1 << 22 };

struct item {
  uint8_t *header, *asked;
  size_t header_bits, header_octets, asked_octets;
};

struct rooms {
  uint8_t *packed, *header, *asked;
  size_t packed_room, header_room, asked_room;
};

static const char *const words[] = {"done", "no memory", "closed", "no room", "refused", "bad bits", "F1", "F2", "F3", "U1", "U2", "no such flow", "F5", "F6"};

/* The octets of a file, with a zero after the last. */
static char *octets_of(const char *name, size_t *count) {
  FILE *file = fopen(name, "rb");
  char *octets = malloc(FILE_LIMIT + 1);
  if (!file || !octets) {
    fprintf(stderr, "items: cannot read %s\n", name);
    exit(2);
  }
  *count = fread(octets, 1, FILE_LIMIT, file);
  octets[*count] = 0;
  fclose(file);
  return octets;
}

/* Reads pairs of hexadecimal digits, and answers how many octets they were. */
static size_t read_hex(const char *text, uint8_t *octets) {
  size_t count = 0;
  for (unsigned value; text[0] > ' ' && sscanf(text, "%2x", &value) == 1; text += 2) octets[count++] = (uint8_t)value;
  return count;
}

/* Reads an item of a line. Its octets have as much room as the line. */
static void read_item(char *line, struct item *item) {
  char *digits;
  item->header_bits = strtoul(line, &digits, 10);
  item->header_octets = read_hex(digits + 1, item->header);
  item->asked_octets = 0;
  for (char *value = strchr(line, ' '); value; value = strchr(value + 1, ' ')) {
    char *colon = strchr(value, ':');
    if (colon) item->asked_octets += read_hex(colon + 1, item->asked + item->asked_octets);
  }
}

/* Packs an item and unpacks its packet. Answers how many bits that has, or 0 where it is refused or not the same again. */
static size_t there_and_back(struct rohcfn *handle, const struct item *item, struct rooms *rooms) {
  size_t bits = 0, said = 0;
  struct rohcfn_counts counts = {0, 0, 0};
  uint8_t line[LINE];
  int32_t answer = rohcfn_pack(handle, 0, item->header, item->header_octets, item->header_bits, item->asked, item->asked_octets, rooms->packed, rooms->packed_room, &bits);
  if (answer == ROHCFN_DONE)
    answer = rohcfn_unpack(handle, 0, rooms->packed, (bits + 7) / 8, bits, rooms->header, rooms->header_room, rooms->asked, rooms->asked_room, &counts);
  if (answer != ROHCFN_DONE) {
    rohcfn_why(handle, line, LINE, &said);
    fprintf(stderr, "items: %s %.*s\n", words[answer], (int)(said < LINE ? said : LINE), (const char *)line);
    return 0;
  }
  int same = counts.header_bits == item->header_bits && counts.asked_octets == item->asked_octets && counts.taken_bits == bits &&
             !memcmp(rooms->header, item->header, item->header_octets) && !memcmp(rooms->asked, item->asked, item->asked_octets);
  if (!same) fprintf(stderr, "items: another item was unpacked\n");
  return same ? bits : 0;
}

/* Rooms in which each packet and item of the profile fits. */
static struct rooms rooms_of(struct rohcfn *handle, size_t asked_room) {
  struct rooms rooms;
  size_t header_bits = 0, packed_bits = 0;
  rohcfn_most(handle, &header_bits, &packed_bits);
  rooms.header_room = (header_bits + 7) / 8;
  rooms.packed_room = (packed_bits + 7) / 8;
  rooms.asked_room = asked_room;
  rooms.header = malloc(rooms.header_room + 1);
  rooms.packed = malloc(rooms.packed_room + 1);
  rooms.asked = malloc(asked_room + 1);
  if (!rooms.header || !rooms.packed || !rooms.asked) exit(2);
  return rooms;
}

/* Packs and unpacks each line, and prints the sums. */
static int all_items(struct rohcfn *handle, char *text, size_t length) {
  struct item item = {malloc(length + 1), malloc(length + 1), 0, 0, 0};
  struct rooms rooms = rooms_of(handle, length);
  size_t count = 0, header_bits = 0, packed_bits = 0, bits = 1;
  for (char *line = strtok(text, "\n"); line && bits; line = strtok(0, "\n")) {
    read_item(line, &item);
    bits = there_and_back(handle, &item, &rooms);
    count++, header_bits += item.header_bits, packed_bits += bits;
  }
  if (bits && count) printf("%zu items, %.1f bits each, packed in %.1f\n", count, (double)header_bits / (double)count, (double)packed_bits / (double)count);
  free(item.header), free(item.asked), free(rooms.header), free(rooms.packed), free(rooms.asked);
  return bits && count ? 0 : 1;
}

int main(int argc, char **argv) {
  if (argc != 4) {
    fprintf(stderr, "items TOP PROFILE ITEMS\n");
    return 2;
  }
  size_t profile_octets, items_octets, said = 0;
  char *profile = octets_of(argv[2], &profile_octets), *items = octets_of(argv[3], &items_octets);
  struct rohcfn handle = {0};
  uint8_t line[LINE];
  int32_t answer = rohcfn_open((const uint8_t *)argv[1], strlen(argv[1]), (const uint8_t *)profile, profile_octets, (const uint8_t *)"", 0, 1, &handle, line, LINE, &said);
  int status = 1;
  if (answer == ROHCFN_DONE) status = all_items(&handle, items, items_octets);
  else fprintf(stderr, "items: %s %.*s\n", words[answer], (int)(said < LINE ? said : LINE), (const char *)line);
  rohcfn_close(&handle);
  free(profile), free(items);
  return status;
}
