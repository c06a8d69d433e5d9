// Blocks of 16-bit words, packed and read back: the calls for C programs.
//
// A block is the forms of its words in order, and then zero bits up to a whole byte; bits go lowest first. A short form has `narrow` bits: the
// word's distance from the pedestal. Every other word takes `narrow` ones and then its own 16 bits. The number of words and the settings are
// not in the block: whoever reads it is told them.
//
// Raw words have two bytes each, the low byte first, on every machine. Each pointer is to as many bytes as the size behind it says and is not null,
// and the output overlaps no input. Nothing else is asked of a caller: any sizes, settings and bytes are answered. Nothing is allocated, and nothing
// is kept between calls.
//
// A call answers a count, from 0 on, or a fault as its number negated. A fault writes nothing: the whole output is as it was.
// Where there is no fault, the bytes of the output past the result are as they were.
#ifndef SLIM_BLOCKS_H
#define SLIM_BLOCKS_H

#include <stddef.h>
#include <stdint.h>

#ifdef __cplusplus
extern "C" {
#endif

// The most words of a block.
#define SLIM_MOST_WORDS 65536

// The faults' numbers.
#define SLIM_OUTPUT_TOO_SHORT 2
#define SLIM_BAD_SETTING 6
#define SLIM_OVER_LIMIT 9
#define SLIM_INPUT_ENDS 11
#define SLIM_PARTIAL_WORD 13
#define SLIM_DEAD_FORM 16
#define SLIM_TRAILING_BYTES 18

// Packs words into a block at the front of the output, and answers how many bits the block has.
// It takes (bits + 7) / 8 bytes, at most 4 for each word. The pad bits of the last byte are written as zero.
//
//   delta     1: what is packed is each word less the one before, modulo 65536, and the first less 0. 0: the words themselves
//   narrow    the bits of a short form, from 1 to 16
//   pedestal  the lowest number with a short form, below 65536. The 2^narrow - 1 numbers from there on, modulo 65536, have one
//   raw       the words, raw_size bytes
//   out       the output, out_size bytes
//
// Faults, in the order in which they are tested:
//    -6  a setting is outside the rules: delta is neither 0 nor 1, narrow not from 1 to 16, or pedestal not below 65536
//   -13  the raw bytes end inside a word: raw_size is odd
//    -9  there are over 65536 words
//    -2  the output is too short for the block
int64_t slim_pack(uint32_t delta, uint32_t narrow, uint32_t pedestal, const uint8_t *raw, size_t raw_size, uint8_t *out, size_t out_size);

// Reads so many words from a block, writes them as raw words to the front of the output, and answers their number, which is count.
// They take 2 * count bytes. The pad bits of the block's last byte are not judged.
//
//   delta, narrow, pedestal  the settings that the block was packed with
//   block     the block, block_size bytes: as many as its bits need
//   count     how many words to read
//   out       the output, out_size bytes
//
// Faults, in the order in which they are tested; 11 and 16 word by word, whichever comes first in the block:
//    -6  a setting is outside the rules, as above
//    -9  count is over 65536
//    -2  the output is too short for the words
//   -11  the block ends inside a form
//   -16  a dead form: narrow ones before a number that has a short form, which is never written
//   -18  bytes behind the end: the block has more bytes than the words' forms need
int64_t slim_read(uint32_t delta, uint32_t narrow, uint32_t pedestal, const uint8_t *block, size_t block_size, size_t count, uint8_t *out, size_t out_size);

#ifdef __cplusplus
}
#endif

#endif
