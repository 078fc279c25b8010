/* Lanternlean: gate sharing for networks of gates and flip-flops, as functions for C.
 *
 * A network is handed over and back as an image: little-endian 32-bit words, at any byte
 * alignment. One record for each node: a header (code + 256 x input count), the input signals,
 * and for a table its low and high word. Then a signal for each output. Then four words: inputs,
 * nodes, outputs, and the distance in bytes from the first record to the image's end. Bytes ahead
 * of the first record are a prefix and ignored; no prefix is ever written.
 * A signal is a word: bit 0 is inversion; 0 and 1 are the constants; node v is 2(v+1); input v is
 * 2^32 - 2 - 2v.
 *
 * Buffers. Every buffer is a pointer and then its length in elements (bytes for uint8_t, words
 * for uint32_t). No pointer may be null, also where the length is 0. A buffer that is written to
 * (out, map, state, outputs, a, b) must not overlap any other. uint32_t buffers are aligned as C
 * asks. a and b are the two work areas; 16,384 words each are needed. What they hold before does
 * not matter, but they are read, so they must be initialised, as static and calloc'ed ones are;
 * zeros, as a call leaves them, are fastest.
 *
 * Answers. But for the two record functions the answer has a number in its low 32 bits and a
 * length in its high 32 bits: see LL_NUMBER and LL_LENGTH. Number 0 is acceptance; the length is
 * then that of the image written, in bytes (0 from ll_evaluate). Any other number is a refusal,
 * with length 0. The numbers are tried in this order, each over the whole image before the next:
 *
 *    1  a or b is below 16,384 words
 *    2  the image is below 16 bytes, or its distance is below 16, not a multiple of 4, or past
 *       the image's start
 *    3  over 1,024 inputs, 512 nodes or 64 outputs
 *    4  a record breaks the layout, or the records do not end where the outputs begin
 *    5  over 2,048 gate inputs in all
 *    6  a signal names an absent input or node
 *    7  not sorted: a combinational gate names a node that is not below its own number (never
 *       from ll_read, ll_cleanup and ll_sort)
 *    8  ll_sort: a combinational loop
 *    9  ll_factor: an And2, And3 or n-ary And of two or more inputs lists a signal twice
 *   10  ll_flatten, ll_share: over 2,048 gate inputs after flattening, before cleanup
 *   11  ll_factor, ll_share: over 4,096 pair places in the And pass or in the Xor pass
 *   12  ll_factor, ll_share: over 512 nodes or 2,048 gate inputs with every pair and join of a
 *       pass appended (the And pass meets 11, then 12; then the Xor pass does)
 *   13  out is shorter than the image that would be written, or map than the nodes of the image
 *       given; in ll_evaluate outputs, inputs or state is too short
 *   14  ll_evaluate: an input byte or a flip-flop's state byte is above 1
 *
 * What is left in the buffers.
 *   image, inputs   never written to.
 *   out             on acceptance its first LL_LENGTH bytes are the image, the rest is as found;
 *                   on a refusal all of it is as found.
 *   map             on acceptance a word for each node of the image given: the signal of the new
 *                   network that stands for it; the rest is as found, and all of it on a refusal.
 *   outputs         on acceptance a byte, 0 or 1, for each output; the rest is as found, and all
 *                   of it on a refusal.
 *   state           on acceptance the bytes of flip-flops are the state after the cycle; all other
 *                   bytes are as found, and all of them on a refusal.
 *   a, b            number 1 changes nothing. Any other answer, acceptance too, leaves the first
 *                   16,384 words of both zero and the words beyond as found.
 */
#ifndef LANTERNLEAN_H
#define LANTERNLEAN_H

#include <stddef.h>
#include <stdint.h>

#ifdef __cplusplus
extern "C" {
#endif

/* Words of a work area that an entry uses. */
#define LL_AREA_WORDS 16384

/* The two halves of an answer. */
#define LL_NUMBER(answer) ((uint32_t)((answer) & 0xffffffffu))
#define LL_LENGTH(answer) ((uint32_t)((answer) >> 32))

/* Reads an image and writes it again: the image given, without its prefix.
 * Numbers 1 to 6 and 13. */
uint64_t ll_read(const uint8_t *image, size_t image_len,
                 uint8_t *out, size_t out_len,
                 uint32_t *a, size_t a_len, uint32_t *b, size_t b_len);

/* Normalizes every gate and merges equal ones. Numbers 1 to 7 and 13. */
uint64_t ll_canonical(const uint8_t *image, size_t image_len,
                      uint8_t *out, size_t out_len,
                      uint32_t *map, size_t map_len,
                      uint32_t *a, size_t a_len, uint32_t *b, size_t b_len);

/* Merges equal gates as they are. Numbers 1 to 7 and 13. */
uint64_t ll_dedup(const uint8_t *image, size_t image_len,
                  uint8_t *out, size_t out_len,
                  uint32_t *map, size_t map_len,
                  uint32_t *a, size_t a_len, uint32_t *b, size_t b_len);

/* Keeps the nodes that outputs reach, through flip-flops, in their order; removed nodes map to
 * the constant zero. Numbers 1 to 6 and 13. */
uint64_t ll_cleanup(const uint8_t *image, size_t image_len,
                    uint8_t *out, size_t out_len,
                    uint32_t *map, size_t map_len,
                    uint32_t *a, size_t a_len, uint32_t *b, size_t b_len);

/* Renumbers the nodes so that the network is sorted: flip-flops first in their order.
 * Numbers 1 to 6, 8 and 13. */
uint64_t ll_sort(const uint8_t *image, size_t image_len,
                 uint8_t *out, size_t out_len,
                 uint32_t *map, size_t map_len,
                 uint32_t *a, size_t a_len, uint32_t *b, size_t b_len);

/* Merges And gates into And gates and Xor gates into Xor gates as far as the limit allows, then
 * cleans up and makes canonical. Numbers 1 to 7, 10 and 13. */
uint64_t ll_flatten(const uint8_t *image, size_t image_len,
                    uint32_t limit,
                    uint8_t *out, size_t out_len,
                    uint32_t *a, size_t a_len, uint32_t *b, size_t b_len);

/* Builds And gates, then Xor gates, of two-input gates, sharing the pairs most used.
 * Numbers 1 to 7, 9, 11, 12 and 13. */
uint64_t ll_factor(const uint8_t *image, size_t image_len,
                   uint8_t *out, size_t out_len,
                   uint32_t *a, size_t a_len, uint32_t *b, size_t b_len);

/* Flattens, then factors. Numbers 1 to 7, 10, 11, 12 and 13. */
uint64_t ll_share(const uint8_t *image, size_t image_len,
                  uint32_t limit,
                  uint8_t *out, size_t out_len,
                  uint32_t *a, size_t a_len, uint32_t *b, size_t b_len);

/* One cycle: a byte for each input, a state byte for each node (only those of flip-flops are
 * looked at and written), a byte for each output. A fresh run starts with state bytes of zero.
 * Numbers 1 to 7, 13 and 14. */
uint64_t ll_evaluate(const uint8_t *image, size_t image_len,
                     const uint8_t *inputs, size_t inputs_len,
                     uint8_t *state, size_t state_len,
                     uint8_t *outputs, size_t outputs_len,
                     uint32_t *a, size_t a_len, uint32_t *b, size_t b_len);

/* The part of the image that holds the record of node k: where it begins, in bytes from `image`
 * (a prefix counts in), and how many bytes it has. Both are 0 where the image meets any of 2 to
 * 6 or k is no node. */
size_t ll_record_at(const uint8_t *image, size_t image_len, uint32_t k);
size_t ll_record_len(const uint8_t *image, size_t image_len, uint32_t k);

#ifdef __cplusplus
}
#endif

#endif
