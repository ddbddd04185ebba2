/* Saltcurtain: the TLSH fuzzy hash, proved. C entry points.
 *
 * Every function answers a number: 0, or one refusal; or a struct that begins with it, and has zeros after a refusal. A refusal
 * writes nothing.
 *
 *    0  done
 *    1  the input is longer than the variant takes
 *    2  the input is shorter than the variant and the mode take
 *    3  the third quartile is 0: at most 12 of 48, 32 of 128 or 64 of 256 counters are other than 0
 *    4  too few counters are other than 0: fewer than 18 of 48, 65 of 128 or 129 of 256
 *    5  no length code
 *    6  the variant is not 48, 128 or 256
 *    7  the destination is shorter than the text
 *    8  the text is of the wrong size
 *    9  the text doesn't begin T1, or a character isn't 0-9 or A-F
 *   10  an unknown option bit
 *   11  the quartiles are not ordered, or the third is 0
 *   12  the digests are of different variants
 *
 * variant   48 (short), 128 (normal) or 256 (long): the number of used buckets
 * options   added: 1 conservative minimum lengths, 2 integer ratios, and three that let through what is refused otherwise:
 *           4 what gets 2, 8 what gets 4, 16 what gets 3 or 4. 0 is the default.
 *
 * A file that repeats the same p bytes hits at most 6 p counters. Where its length is taken and option 16 is clear, it gets 3 for p
 * up to 2 in the short variant, 5 in the normal one and 10 in the long one. A longer p may get a digest: 2,000 lines of 9999, which
 * repeat 5 bytes, get one in the short variant at every option.
 *
 * A slice is a pointer and a number of bytes. A null pointer is allowed where the number is 0. What a caller has to see to, and
 * no function can judge: a slice's bytes can be read, a destination's can be written, and a destination overlaps no other
 * argument. Nothing is allocated and nothing is kept between calls, so calls from several threads do not meet.
 */
#ifndef SALTCURTAIN_H
#define SALTCURTAIN_H

#include <stddef.h>
#include <stdint.h>

#ifdef __cplusplus
extern "C" {
#endif

/* The number of characters of a variant's text, which no zero byte ends. */
#define SALTCURTAIN_TEXT_48 32
#define SALTCURTAIN_TEXT_128 72
#define SALTCURTAIN_TEXT_256 136

/* Writes the text of the input's digest at the front of the destination; later bytes of it stay.
 * Refusals, in this order: 10, 6, 7, 1, 2, 5, 3, 4. */
uint32_t saltcurtain_digest(uint32_t variant, uint32_t options, const uint8_t *input, size_t input_len,
                            uint8_t *destination, size_t destination_len);

/* The same, with the input fed in pieces of so many bytes; 0 means in one piece. The answer does not depend on it. */
uint32_t saltcurtain_digest_pieces(uint32_t variant, uint32_t options, size_t piece, const uint8_t *input,
                                   size_t input_len, uint8_t *destination, size_t destination_len);

/* Reads a digest's text and writes it again at the front of the destination; later bytes of it stay.
 * Refusals, in this order: 6, 7, 8, 9. */
uint32_t saltcurtain_rewrite(uint32_t variant, const uint8_t *text, size_t text_len, uint8_t *destination,
                             size_t destination_len);

/* Writes four numbers: the bits of the single-precision quotients 100 * q1 / q3 and 100 * q2 / q3, then their whole parts.
 * Refusal: 11, unless q1 <= q2 <= q3 and q3 >= 1. */
uint32_t saltcurtain_ratios(uint32_t q1, uint32_t q2, uint32_t q3, uint32_t out[4]);

/* Writes one number: the code of a length. Refusal: 5. */
uint32_t saltcurtain_length_code(uint32_t n, uint32_t out[1]);

/* The number of the answer, and a distance. */
struct saltcurtain_distance {
    uint32_t number;
    uint32_t distance;
};

/* The distance of the digests of two texts: 0 for the same digest, and the greater the less alike they are; at most 1993, 2473 and
 * 3241 in the short, the normal and the long variant. Either order gives the same.
 * Refusals, in this order: 6, 12, then 8 and 9 of the first text, then 8 and 9 of the second. */
struct saltcurtain_distance saltcurtain_distance(uint32_t variant_a, const uint8_t *text_a, size_t text_a_len,
                                                 uint32_t variant_b, const uint8_t *text_b, size_t text_b_len);

/* A digest without its body. The ratio of the first quartile is in the low four bits of `ratios`. */
struct saltcurtain_head {
    uint32_t variant;
    uint8_t checksum;
    uint8_t length_code;
    uint8_t ratios;
};

/* A digest. The body uses its first 12, 32 or 64 bytes. */
struct saltcurtain_record {
    uint8_t body[64];
    struct saltcurtain_head head;
};

/* The number of the answer, and the digest that was read. */
struct saltcurtain_read {
    uint32_t number;
    struct saltcurtain_record digest;
};

/* Reads a digest's text, for a caller who compares it often. Refusals, in this order: 6, 8, 9. */
struct saltcurtain_read saltcurtain_read(uint32_t variant, const uint8_t *text, size_t text_len);

/* The distance of two digests that were read, each given by its head and its 64 bytes of body; bytes that the variant does not use
 * make no difference. Refusals, in this order: 6, 12. */
struct saltcurtain_distance saltcurtain_distance_read(struct saltcurtain_head a, const uint8_t body_a[64],
                                                      struct saltcurtain_head b, const uint8_t body_b[64]);

#ifdef __cplusplus
}
#endif

#endif
