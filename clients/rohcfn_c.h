/* rohcfn_c: ROHC-FN (RFC 4997) profiles at work, from C. A library over the engine of this repository. What each call answers is stated in crates/rohcfn_c/src/exports.rt
 * by the engine's own definitions, and proved. What a caller owes stands here, and nothing checks it; docs/LIBRARY.md says more.
 *
 * Bits      are octets and a count of bits. The first bit is the highest of the first octet, and the bits after the last one are zero: 10 bits fill 2 octets.
 *           A call that takes bits answers ROHCFN_BAD_BITS for more or fewer octets than the bits fill, or a one after the last bit.
 * Handle    several flows, each with both of its ends: packets are packed in one context, and unpacked in another. {0} before its first use; then only these calls
 *           write it. Never copy it. {0} and a closed handle may be passed to any call, which answers ROHCFN_CLOSED; a second close does nothing.
 * Refusals  A call that answers anything but ROHCFN_DONE leaves the flows as they were, and writes to no buffer but `line` of rohcfn_open. Counts are told at
 *           ROHCFN_DONE and at ROHCFN_NO_ROOM.
 * Memory    malloc, realloc and free of the program (one allocator, aligned to 16), by liblibc_c.a of the kit. The library keeps no pointer of the caller's after a
 *           call, and hands none out but the handle's.
 * Threads   A handle is one thread's at a time, and may go to another thread between two calls: that is proved. The caller orders the two, by a lock, or by the start or the
 *           end of a thread. Two handles share nothing. Not from a signal handler, nor in a forked child of a threaded process. No call waits, starts a thread or touches
 *           a file.
 * Pointers  never null, also where a length is 0. What is written overlaps nothing else that is passed. */
#ifndef ROHCFN_C_H
#define ROHCFN_C_H
#include <stddef.h>
#include <stdint.h>
#ifdef __cplusplus
extern "C" {
#endif

struct rohcfn { void *at; };

/* How much an item is, and how many bits its packet took. */
struct rohcfn_counts { size_t header_bits, asked_octets, taken_bits; };

enum rohcfn_answer {
  ROHCFN_DONE = 0,
  ROHCFN_NO_MEMORY = 1,       /* malloc or realloc answered null; after open the handle is closed */
  ROHCFN_CLOSED = 2,          /* there is no session behind the handle */
  ROHCFN_NO_ROOM = 3,         /* a buffer is too short: the counts tell how much there is */
  ROHCFN_REFUSED = 4,         /* open: the profile or its certificate is refused; the line says why, as `rohcfn check` prints it */
  ROHCFN_BAD_BITS = 5,        /* octets and count don't fit each other */
  ROHCFN_HEADER_LENGTH = 6,   /* pack, F1: the header is above 4,096 bits */
  ROHCFN_ASKED = 7,           /* pack, F2: the octets aren't those of the values of the asked fields */
  ROHCFN_NO_FORMAT = 8,       /* pack, F3: no format has the item */
  ROHCFN_TRUNCATED = 9,       /* unpack, U1: the bits ran out; with more of them there may be a packet */
  ROHCFN_REFUSED_PACKET = 10, /* unpack, U2: no packet begins these bits, nor any longer ones */
  ROHCFN_NO_SUCH = 11,        /* there is no such flow or asked field; open: the count of flows isn't 1 to 64 */
  ROHCFN_NO_REACH = 12,       /* pack, F5: no format serves in all contexts that a receiver may hold */
  ROHCFN_CONTEXTS = 13        /* pack, F6: a receiver might hold more than 256 contexts afterwards */
};

/* Reads the profile whose top method has this name, and its certificate: the text, or with certificate_len 0 the one that the prover makes (seconds for large profiles).
 * There are so many flows, 1 to 64 (a line of `rohcfn send` has 16 or 64), and nothing was packed or unpacked. What the handle held is closed first. At
 * ROHCFN_REFUSED up to `room` octets of the reason, without a line end, are written to `line`, and *said is its whole length; else *said is 0. */
int32_t rohcfn_open(const uint8_t *top, size_t top_len, const uint8_t *profile, size_t profile_len, const uint8_t *certificate, size_t certificate_len,
                    size_t flows, struct rohcfn *handle, uint8_t *line, size_t room, size_t *said);

/* Packs one item of a flow, numbered from 0. `asked` has the values of the profile's asked fields in the order of CONTROL, each in the octets that its bits fill. At
 * ROHCFN_DONE the packet is in `packed`, of *packed_bits bits, and the sending end goes on. At ROHCFN_NO_ROOM *packed_bits is how many bits there are, or, for a flow
 * whose packets survive losses, the most that a packet may have: such a flow wants room for any. */
int32_t rohcfn_pack(struct rohcfn *handle, size_t flow, const uint8_t *header, size_t header_len, size_t header_bits, const uint8_t *asked, size_t asked_len,
                    uint8_t *packed, size_t room, size_t *packed_bits);

/* Unpacks the packet of a flow that begins the bits. At ROHCFN_DONE the header is in `header` and the values of the asked fields, as above, in `asked`; the counts tell
 * how much they are and how many bits the packet took, and the receiving end goes on. At ROHCFN_NO_ROOM the counts tell the same. */
int32_t rohcfn_unpack(struct rohcfn *handle, size_t flow, const uint8_t *packed, size_t packed_len, size_t packed_bits, uint8_t *header, size_t header_room,
                      uint8_t *asked, size_t asked_room, struct rohcfn_counts *counts);

/* Both ends of a flow begin anew, with empty contexts; none of its packets may be lost then. */
int32_t rohcfn_reset(struct rohcfn *handle, size_t flow);

/* From here on up to `lost` packets of the flow in a row may be lost: it is packed so that a receiver which lost nothing so far reads each one that comes. */
int32_t rohcfn_robust(struct rohcfn *handle, size_t flow, uint8_t lost);

/* How many contexts, with how many packets were lost right before, a receiver of the flow may hold: 1 where none may be lost. */
int32_t rohcfn_contexts(struct rohcfn *handle, size_t flow, size_t *count);

/* The most bits that a header and a packet of the profile may have. Buffers of so many bits never lead to ROHCFN_NO_ROOM. */
int32_t rohcfn_most(struct rohcfn *handle, size_t *header_bits, size_t *packed_bits);

/* The name of an asked field, by its place in CONTROL among them, and how many bits its values have. Up to `room` octets of the name are written, and *said is its
 * whole length. ROHCFN_NO_SUCH past the last one. */
int32_t rohcfn_asked(struct rohcfn *handle, size_t index, uint8_t *name, size_t room, size_t *said, size_t *bits);

/* The line of the last refusal of pack or unpack, as the program prints it after `item 1: ` or `packet 1: `, as `F3 NoFormat`; empty where the caller is at fault.
 * Up to `room` octets are written, and *said is its whole length. */
int32_t rohcfn_why(struct rohcfn *handle, uint8_t *line, size_t room, size_t *said);

void rohcfn_close(struct rohcfn *handle);
#ifdef __cplusplus
}
#endif
#endif
