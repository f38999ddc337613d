/* calls: what each call answers, on small profiles. The values are by hand. */
#include "rohcfn_c.h"
#include <stdio.h>
#include <stdlib.h>
#include <string.h>

#define OCTETS(text) (const uint8_t *)(text), sizeof(text) - 1
#define CHECK(holds) do { if (!(holds)) { fprintf(stderr, "calls: line %d: %s\n", __LINE__, #holds); exit(1); } } while (0)

static const char plain[] = "plain\n{\n  UNCOMPRESSED { a [4]; b [12]; }\n  COMPRESSED {\n    d =:= '10' [2];\n    a =:= irregular(4) [4];\n    b =:= irregular(12) [12];\n  }\n}\n";
static uint8_t line[64], out[64], values[8];
static size_t said, bits;
static struct rohcfn_counts counts;

static int32_t open_plain(struct rohcfn *handle, size_t flows) {
  return rohcfn_open(OCTETS("plain"), OCTETS(plain), OCTETS(""), flows, handle, line, sizeof line, &said);
}

static int32_t pack(struct rohcfn *handle, size_t flow, const char *header, size_t octets, size_t count, size_t room) {
  return rohcfn_pack(handle, flow, (const uint8_t *)header, octets, count, OCTETS(""), out, room, &bits);
}

static int32_t unpack(struct rohcfn *handle, size_t flow, const char *packed, size_t octets, size_t count, size_t room) {
  return rohcfn_unpack(handle, flow, (const uint8_t *)packed, octets, count, out, room, values, sizeof values, &counts);
}

static int says(struct rohcfn *handle, const char *text) {
  return rohcfn_why(handle, line, sizeof line, &said) == ROHCFN_DONE && said == strlen(text) && !memcmp(line, text, said);
}

/* A handle with no session, before open and after close. */
static void closed(struct rohcfn *handle) {
  size_t a = 7, b = 7;
  CHECK(pack(handle, 0, "x", 1, 8, 64) == ROHCFN_CLOSED && unpack(handle, 0, "x", 1, 8, 64) == ROHCFN_CLOSED);
  CHECK(rohcfn_reset(handle, 0) == ROHCFN_CLOSED && rohcfn_robust(handle, 0, 1) == ROHCFN_CLOSED && rohcfn_contexts(handle, 0, &a) == ROHCFN_CLOSED);
  CHECK(rohcfn_most(handle, &a, &b) == ROHCFN_CLOSED && rohcfn_asked(handle, 0, line, 64, &a, &b) == ROHCFN_CLOSED && rohcfn_why(handle, line, 64, &a) == ROHCFN_CLOSED);
  CHECK(a == 7 && b == 7);
  rohcfn_close(handle);
  CHECK(!handle->at);
}

static void opening(void) {
  struct rohcfn handle = {0};
  closed(&handle);
  CHECK(rohcfn_open(OCTETS("plain"), OCTETS("plain {"), OCTETS(""), 1, &handle, line, 8, &said) == ROHCFN_REFUSED && !handle.at && said > 8 && !memcmp(line, "profile:", 8));
  CHECK(rohcfn_open(OCTETS("plain"), OCTETS(plain), OCTETS("nonsense"), 1, &handle, line, 64, &said) == ROHCFN_REFUSED && !handle.at);
  CHECK(rohcfn_open(OCTETS("\xff"), OCTETS(plain), OCTETS(""), 1, &handle, line, 64, &said) == ROHCFN_REFUSED && said == 0);
  CHECK(open_plain(&handle, 0) == ROHCFN_NO_SUCH && open_plain(&handle, 65) == ROHCFN_NO_SUCH && open_plain(&handle, SIZE_MAX) == ROHCFN_NO_SUCH && !handle.at);
  CHECK(open_plain(&handle, 64) == ROHCFN_DONE && handle.at && said == 0);
  CHECK(open_plain(&handle, 1) == ROHCFN_DONE && handle.at);
  rohcfn_close(&handle);
  CHECK(!handle.at);
  closed(&handle);
}

/* '10', 0101 and 1010 1011 1100 are 1001 0110 1010 1111 00. */
static void packing(void) {
  struct rohcfn handle = {0};
  CHECK(open_plain(&handle, 16) == ROHCFN_DONE);
  memset(out, 9, sizeof out);
  CHECK(pack(&handle, 15, "\x5a\xbc", 2, 16, 3) == ROHCFN_DONE && bits == 18 && !memcmp(out, "\x96\xaf\0\x9", 4));
  CHECK(unpack(&handle, 15, "\x96\xaf\0", 3, 18, 2) == ROHCFN_DONE && counts.header_bits == 16 && counts.taken_bits == 18 && counts.asked_octets == 0 && !memcmp(out, "\x5a\xbc\0\x9", 4));
  CHECK(says(&handle, ""));
  CHECK(pack(&handle, 0, "\x5a\xbc", 2, 16, 2) == ROHCFN_NO_ROOM && bits == 18 && pack(&handle, 0, "\x5a\xbc", 2, 16, 0) == ROHCFN_NO_ROOM && says(&handle, ""));
  CHECK(pack(&handle, 0, "\x5a\xbd", 2, 15, 64) == ROHCFN_BAD_BITS && pack(&handle, 0, "\x5a\xbc", 2, 8, 64) == ROHCFN_BAD_BITS && pack(&handle, 0, "\x5a\xbc", 2, 17, 64) == ROHCFN_BAD_BITS);
  CHECK(pack(&handle, 0, "\x5a\xbc", 2, SIZE_MAX, 64) == ROHCFN_BAD_BITS);
  CHECK(pack(&handle, 0, "\x5a", 1, 8, 64) == ROHCFN_NO_FORMAT && says(&handle, "F3 NoFormat"));
  CHECK(rohcfn_pack(&handle, 0, OCTETS("\x5a\xbc"), 16, OCTETS("x"), out, 64, &bits) == ROHCFN_ASKED && says(&handle, "F2 Asked"));
  static const char big[513];
  CHECK(pack(&handle, 0, big, 513, 4104, 64) == ROHCFN_HEADER_LENGTH && says(&handle, "F1 HeaderLength"));
  CHECK(pack(&handle, 16, "\x5a\xbc", 2, 16, 64) == ROHCFN_NO_SUCH && unpack(&handle, SIZE_MAX, "\x5a", 1, 8, 64) == ROHCFN_NO_SUCH && rohcfn_reset(&handle, 16) == ROHCFN_NO_SUCH);
  rohcfn_close(&handle);
}

static void unpacking(void) {
  struct rohcfn handle = {0};
  CHECK(open_plain(&handle, 1) == ROHCFN_DONE);
  CHECK(unpack(&handle, 0, "\x80", 1, 8, 64) == ROHCFN_TRUNCATED && says(&handle, "U1 Truncated"));
  CHECK(unpack(&handle, 0, "\x40\0\0", 3, 24, 64) == ROHCFN_REFUSED_PACKET);
  CHECK(rohcfn_why(&handle, line, 5, &said) == ROHCFN_DONE && said > 5 && !memcmp(line, "U2 Re", 5));
  CHECK(unpack(&handle, 0, "\x96\xaf\0", 3, 18, 1) == ROHCFN_NO_ROOM && counts.header_bits == 16 && counts.taken_bits == 18);
  CHECK(unpack(&handle, 0, "\x96\xaf\0", 3, 18, 0) == ROHCFN_NO_ROOM);
  CHECK(unpack(&handle, 0, "\x96\xaf\0\xff", 4, 32, 2) == ROHCFN_DONE && counts.taken_bits == 18);
  rohcfn_close(&handle);
}

/* Robust flows want room for any packet. */
static void losses(void) {
  struct rohcfn handle = {0};
  size_t count = 0, header = 0, packed = 0;
  CHECK(open_plain(&handle, 2) == ROHCFN_DONE && rohcfn_most(&handle, &header, &packed) == ROHCFN_DONE && header == 16 && packed == 18);
  CHECK(rohcfn_robust(&handle, 2, 1) == ROHCFN_NO_SUCH && rohcfn_robust(&handle, 1, 2) == ROHCFN_DONE && rohcfn_contexts(&handle, 1, &count) == ROHCFN_DONE && count == 1);
  CHECK(pack(&handle, 1, "\x5a\xbc", 2, 16, 2) == ROHCFN_NO_ROOM && bits == 18);
  CHECK(pack(&handle, 1, "\x5a\xbc", 2, 16, 3) == ROHCFN_DONE && bits == 18 && !memcmp(out, "\x96\xaf", 3));
  CHECK(rohcfn_contexts(&handle, 1, &count) == ROHCFN_DONE && count > 1 && rohcfn_contexts(&handle, 0, &count) == ROHCFN_DONE && count == 1);
  CHECK(rohcfn_reset(&handle, 1) == ROHCFN_DONE && rohcfn_contexts(&handle, 1, &count) == ROHCFN_DONE && count == 1);
  CHECK(rohcfn_asked(&handle, 0, line, 64, &said, &count) == ROHCFN_NO_SUCH);
  rohcfn_close(&handle);
}

/* What one handle does changes nothing of another. */
static void two_handles(void) {
  struct rohcfn one = {0}, other = {0};
  CHECK(open_plain(&one, 1) == ROHCFN_DONE && open_plain(&other, 1) == ROHCFN_DONE && one.at != other.at);
  CHECK(pack(&one, 0, "\x5a\xbc", 2, 16, 64) == ROHCFN_DONE && pack(&other, 0, "\x5a", 1, 8, 64) == ROHCFN_NO_FORMAT);
  CHECK(says(&one, "") && says(&other, "F3 NoFormat"));
  rohcfn_close(&one);
  CHECK(pack(&other, 0, "\x5a\xbc", 2, 16, 64) == ROHCFN_DONE);
  rohcfn_close(&other);
}

int main(void) {
  opening();
  packing();
  unpacking();
  losses();
  two_handles();
  puts("calls: ok");
  return 0;
}
