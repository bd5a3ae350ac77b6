/* Ramekinfold from C and C++, for Linux on x86-64. Link target/staticlib/libramekinfold.a.
 *
 * Every call answers for every input: there is nothing to check first, nothing to free, and no call keeps a pointer.
 * A lent slice is a pointer and its length in bytes; where the length is 0, nothing is read through the pointer. Two things the
 * caller alone can see to: the bytes are there, and those lent to be written are lent only once in a call.
 * Answers are the numbers of the project's paper. 0 is done, and with an offer 2 and 3 are done too. 1 says that a proof does not
 * pass, and numbers from 10 up are refusals: these leave each lent byte as it was and hand back zeros beside the answer, but for
 * the place of the record that a draw names.
 * What each call promises stands in docs/PROMISES.md.
 */
#ifndef RAMEKINFOLD_H
#define RAMEKINFOLD_H

#include <stddef.h>
#include <stdint.h>

#ifdef __cplusplus
extern "C" {
#endif

/* An answer and the digest that comes with it. */
typedef struct RkfDigested {
    uint32_t answer;
    uint8_t digest[32];
} RkfDigested;

/* A hash under way, by value: lane (x, y) is lanes[x + 5 * y], and place is how many bytes of the block of 136 are in.
 * One whose place is 136 or more counts as a fresh one, whatever its lanes hold. */
typedef struct RkfSponge {
    uint64_t lanes[25];
    size_t place;
} RkfSponge;

/* An answer and a number that comes with it, 0 on a refusal. */
typedef struct RkfNumbered {
    uint32_t answer;
    uint32_t number;
} RkfNumbered;

/* A stretch of a lent slice. */
typedef struct RkfPart {
    uint64_t start;
    uint64_t length;
} RkfPart;

/* The answer of a draw, the place from 0 of the record that it is about (else 0), and the commitment. */
typedef struct RkfDrawn {
    uint32_t answer;
    uint32_t place;
    uint8_t commitment[32];
} RkfDrawn;

/* The Keccak-256 digest of a message of any length, with answer 0. */
RkfDigested rkf_keccak256(const uint8_t *message, size_t length);

/* A fresh sponge: all lanes zero, place 0. */
RkfSponge rkf_sponge(void);

/* The sponge after one more part of the message. Parts hash as the joined parts. */
RkfSponge rkf_absorb(RkfSponge sponge, const uint8_t *part, size_t length);

/* The digest of all that was absorbed, with answer 0. The sponge handed in can still be absorbed into. */
RkfDigested rkf_finish(RkfSponge sponge);

/* The address of a chunk: 8 span bytes (else 10) and at most 4,096 data bytes (else 12). */
RkfDigested rkf_address(const uint8_t *span, size_t span_length, const uint8_t *data, size_t data_length);

/* The same tree with a 32-byte anchor (else 10) before every message that is hashed. */
RkfDigested rkf_anchored_address(const uint8_t *anchor, size_t anchor_length, const uint8_t *span, size_t span_length,
                                 const uint8_t *data, size_t data_length);

/* How many segments of 32 bytes cover the data, whatever its length. */
uint64_t rkf_segment_count(const uint8_t *data, size_t length);

/* Where segment `index` stands in the data: shorter at the end, and empty, at the data's end, from the count on. */
RkfPart rkf_segment(const uint8_t *data, size_t length, uint64_t index);

/* Writes the proof of a segment to 264 lent bytes. Refusals, which write nothing: 10 span or proof of another length, 12 data
 * above 4,096 bytes, 11 index above 127. */
uint32_t rkf_make_proof(const uint8_t *span, size_t span_length, const uint8_t *data, size_t data_length, uint64_t index,
                        uint8_t *proof, size_t proof_length);

/* 0 the proof passes, 1 it does not; 10 address or proof of another length, 11 index above 127. */
uint32_t rkf_check_proof(const uint8_t *address, size_t address_length, uint64_t index, const uint8_t *proof,
                         size_t proof_length);

/* The shared bits of two 32-byte numbers; 10 and no bits for any other length. */
RkfNumbered rkf_nearness(const uint8_t *first, size_t first_length, const uint8_t *second, size_t second_length);

/* The digest that a batch's owner signs: a 32-byte address and a 113-byte stamp, whose signature is not covered; else 10. */
RkfDigested rkf_stamp_digest(const uint8_t *address, size_t address_length, const uint8_t *stamp, size_t stamp_length);

/* The rules of a stamp, against the account that the host recovered: 0 passes; 15 batch list not well formed, 10 address, stamp
 * or account of another length, 16 batch not in the list, 17 bucket is not the address's, 18 index past the bucket's slots, 19
 * account is not the batch owner. */
uint32_t rkf_check_stamp(const uint8_t *batches, size_t batches_length, const uint8_t *address, size_t address_length,
                         const uint8_t *stamp, size_t stamp_length, const uint8_t *account, size_t account_length);

/* Writes a fresh book over all of the lent 48 + 145 * capacity bytes. Refusals, which write nothing: 27 capacity not 16 to 65,536
 * or starting depth above 16, 10 overlay not 32 bytes or book of another length. */
uint32_t rkf_open(uint8_t *book, size_t book_length, const uint8_t *overlay, size_t overlay_length, uint64_t capacity,
                  uint64_t starting_depth);

/* 0 the book is well formed, 13 it is not; any bytes are taken. */
uint32_t rkf_check_book(const uint8_t *book, size_t length);

/* Which of two 145-byte records of one slot ranks higher: length 145, and start 0 for the first (also if they are equal) or 1 for
 * the second. For other lengths or two slots start and length are 0. */
RkfPart rkf_higher(const uint8_t *first, size_t first_length, const uint8_t *second, size_t second_length);

/* Offers a chunk's address, with its stamp and the account that the host recovered, to the book: 0 kept, 2 the depth rose and the
 * offer was dropped, 3 the book became overfull. Refusals, which write nothing: 13 book not well formed, 14 already overfull, 15
 * and 10 and 16 to 19 as `rkf_check_stamp`, 20 shared bits below depth, 21 this very record is held, 22 the slot is held by a
 * higher rank. */
uint32_t rkf_offer(uint8_t *book, size_t book_length, const uint8_t *batches, size_t batches_length, const uint8_t *address,
                   size_t address_length, const uint8_t *stamp, size_t stamp_length, const uint8_t *account,
                   size_t account_length);

/* Draws from a book, its chunks on the shelf in record order (span, length in 2 bytes, data) and a 32-byte anchor: writes the
 * sixteen smallest pairs to 1,024 lent bytes and hands back the commitment to them. Refusals, which write nothing: 13 book not well
 * formed, 14 overfull, 10 anchor or sample of another length; with the record's place 23 shelf ends inside or before a chunk, 12
 * data above 4,096 bytes, 24 chunk does not hash to its record; 25 bytes left after the last chunk, 26 fewer than sixteen pairs. */
RkfDrawn rkf_draw(const uint8_t *book, size_t book_length, const uint8_t *shelf, size_t shelf_length, const uint8_t *anchor,
                  size_t anchor_length, uint8_t *sample, size_t sample_length);

#ifdef __cplusplus
}
#endif

#endif
