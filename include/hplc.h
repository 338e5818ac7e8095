/*
 * The core of a bench tester for power-line meter modules (HPLC, Q/GDW 11612.41): job cards, frame control and payload
 * blocks from bytes to items on carriers and back, constellation points and their slicing.
 *
 * Proved of every call, for all contents and all lengths of its buffers:
 *
 * - It returns a number of `enum hplc_number`: HPLC_DONE, or why it refused. The causes are checked in the order in which the
 *   enumeration lists them, and the first that applies is the answer.
 * - It stores two numbers behind `value`, on refusals too: value[0] is what comes with the number, value[1] is 0 so far.
 * - A refusal leaves every other buffer as it was. On success the first value[0] elements of the output are written, and those
 *   beyond keep their contents. Inputs are never written.
 * - It returns, and reads and writes nothing but the buffers that it was lent and its own stack.
 *
 * Assumed of the caller, and checked by nobody:
 *
 * - A pointer is valid for its length and aligned for its type, and may be null only where that length is 0. `value` is valid for two
 *   numbers.
 * - The buffers of one call, `value` among them, do not overlap.
 *
 * The caller owns all memory: nothing is allocated or kept between calls. The library needs memcpy and memset, and nothing else.
 *
 * A bit going out is an item 0 or 1. A received item is 0, 1 or 2, where 2 means lost.
 */
#ifndef HPLC_H
#define HPLC_H

#include <stddef.h>
#include <stdint.h>

#ifdef __cplusplus
extern "C" {
#endif

/* The version of this interface. hplc_version() gives that of the library: the same number where both belong together. */
#define HPLC_VERSION_MAJOR 3
#define HPLC_VERSION_MINOR 1
#define HPLC_VERSION_PATCH 0
#define HPLC_VERSION (HPLC_VERSION_MAJOR * 10000 + HPLC_VERSION_MINOR * 100 + HPLC_VERSION_PATCH)

/*
 * The numbers, in the order in which their causes are checked, and what comes with each as value[0]. 9 was "pad longer than the coded data";
 * it is withdrawn, since no mode could give it, and is given to nothing else.
 */
enum hplc_number {
    /* It is done; the count of elements written, or the number that was asked for. */
    HPLC_DONE = 0,
    /* The card is neither 11 nor 12 bytes; its length. */
    HPLC_REFUSED_CARD_LENGTH = 1,
    /* The version is neither 1 nor 2, the spare bit is not 0, or the padding on 12 bytes of version 2 is not 0; 0. */
    HPLC_REFUSED_CARD_VERSION = 2,
    /* The card's version and its length disagree; 0. */
    HPLC_REFUSED_VERSION_LENGTH = 10,
    /* The mode is not defined, or not served by this call; 0. So far more than one block is not, nor are copies of a frame control. */
    HPLC_REFUSED_MODE = 3,
    /* An input's length, or a place or sub-carrier in a band, is wrong; that number. */
    HPLC_REFUSED_LENGTH = 4,
    /* The output is shorter than needed; the needed length. */
    HPLC_REFUSED_ROOM = 5,
    /* An item is not legal; the lowest such index. */
    HPLC_REFUSED_ITEM = 6,
    /* A coded bit has no strict majority of its copies; the lowest such bit. */
    HPLC_REFUSED_MAJORITY = 7,
    /* Parity disagrees; the count of kept parity bits that disagree. */
    HPLC_REFUSED_PARITY = 8,
    /* Version 1 cannot say the block count and the copy count; 0. So it is where version 1 of a payload with copies is asked for. */
    HPLC_REFUSED_COUNTS = 11
};

/*
 * Lengths. Those of items are proved to be the lengths that the calls need, and that no mode needs more than HPLC_PAYLOAD_ITEMS_MAX. No
 * printed card is longer than HPLC_CARD_TEXT_MAX, which is proved too.
 */
#define HPLC_CARD_BYTES 11
#define HPLC_CARD_2_BYTES 12
#define HPLC_CARD_FIELDS 10
#define HPLC_CARD_TEXT_MAX 108
#define HPLC_FC_BYTES 16
#define HPLC_FC_ITEMS_BAND_0 3288
#define HPLC_FC_ITEMS_BAND_1 3144
#define HPLC_FC_ITEMS_BAND_2 2136
#define HPLC_FC_ITEMS_BAND_3 1176
#define HPLC_PAYLOAD_BYTES_MAX 520
#define HPLC_PAYLOAD_ITEMS_MAX 101920

/*
 * Stack of a call in bytes, on x86-64: measured over every mode and copy count (tests/stack.sh), not proved. CARD is of each call about
 * cards, POINT of each about points, places and sub-carriers. Where memcpy and memset are bound when they are first called, the dynamic
 * linker takes some stack besides, which goes by the machine.
 */
#define HPLC_STACK_CARD 1024
#define HPLC_STACK_POINT 512
#define HPLC_STACK_FC_SEND 4096
#define HPLC_STACK_FC_READ 5120
#define HPLC_STACK_PAYLOAD_SEND 27648
#define HPLC_STACK_PAYLOAD_READ 28672

/* The library's version, as HPLC_VERSION has it. */
uint32_t hplc_version(void);

/*
 * The fields of a job card: version, band, kind, rate, modulation, taps, spare, serial, blocks, copies, in this order into `fields`. Blocks
 * and copies are counts; a card of version 1 has one of each. Refusals 1, 2, 10, 3, and 5 with HPLC_CARD_FIELDS.
 */
uint32_t hplc_card_read(const uint8_t *card, size_t card_len, uint64_t *fields, size_t fields_len, uint64_t value[2]);

/*
 * A job card from its fields: HPLC_CARD_BYTES of version 1 or HPLC_CARD_2_BYTES of version 2 into `out`. A field that does not fit its bits
 * is refused by 2 (version, spare) or 3, and more than one block by 3 so far. The copies of a payload are 1, 2, 4, 5, 7 or 11, and those of
 * a frame control 1; another count is 3. Refusals 2, 3, 5 with the version's length, 11.
 */
uint32_t hplc_card_write(uint64_t version, uint64_t band, uint64_t kind, uint64_t rate, uint64_t modulation, uint64_t taps,
                         uint64_t spare, uint64_t serial, uint64_t blocks, uint64_t copies, uint8_t *out, size_t out_len,
                         uint64_t value[2]);

/*
 * A job card moved to version 1 or 2 with its other fields: HPLC_CARD_BYTES or HPLC_CARD_2_BYTES into `out`. A card of that version comes
 * back as it is. Refusals 1, 2 for the card or for any other version asked for, 10, 3, 5 with the length of the version asked for, 11.
 */
uint32_t hplc_card_move(const uint8_t *card, size_t card_len, uint64_t version, uint8_t *out, size_t out_len, uint64_t value[2]);

/*
 * The printed card, or `refused` and the number, as text without a closing zero into `out`; at most HPLC_CARD_TEXT_MAX bytes. The only
 * refusal is 5 with the text's length.
 */
uint32_t hplc_card_text(const uint8_t *card, size_t card_len, uint8_t *out, size_t out_len, uint64_t value[2]);

/*
 * The constellation point of 1, 2 or 4 bits (modulation 0 BPSK, 1 QPSK, 2 16QAM): I and Q into `point`, each a level times the factor f of
 * the modulation. The levels are -1 and 1, for 16QAM -3 and 3 too, and 0 for BPSK's Q; f is 1, and near to 1/sqrt(2) and 1/sqrt(10).
 * Refusals 3, 4 with bits_len, 5 with 2, 6.
 */
uint32_t hplc_map(uint64_t modulation, const uint8_t *bits, size_t bits_len, double *point, size_t point_len, uint64_t value[2]);

/*
 * The items that a received carrier gives: 1, 2 or 4 of them, each 0, 1 or 2. `heard` 0 is a lost carrier, any other value one
 * that was heard at (i, q). A coordinate gives 2 where it is a NaN or an infinity or its size is at most f/8: 0x1p-3 for BPSK,
 * 0x1.6a09e667f3bcdp-4 for QPSK and 0x1.43d136248490fp-5 for 16QAM. For 16QAM both of its items are 2 then, and so they are where the
 * size is from 2f - f/8 to 2f + f/8, 0x1.2f9422c23c47ep-1 to 0x1.580e4986ccdap-1, both included. BPSK looks at i alone. Refusals 3, 5.
 */
uint32_t hplc_slice(uint64_t modulation, uint64_t heard, double i, double q, uint8_t *items, size_t items_len, uint64_t value[2]);

/*
 * The place of a sub-carrier in a band's usable list, and back, as value[0]. Bands 0 to 3 are sub-carriers 80 to 490, 100 to 230, 32 to 120
 * and 72 to 120. Refusals 3 for another band, 4 for a number outside it.
 */
uint32_t hplc_place_of_sub_carrier(uint64_t band, uint64_t sub_carrier, uint64_t value[2]);
uint32_t hplc_sub_carrier_of_place(uint64_t band, uint64_t place, uint64_t value[2]);

/*
 * The items of a frame control: HPLC_FC_BYTES in, HPLC_FC_ITEMS_BAND_0 to HPLC_FC_ITEMS_BAND_3 items out by the card's band, by symbol,
 * place, I then Q. Refusals 1, 2, 10, 3 (a payload card too), 4, 5.
 */
uint32_t hplc_fc_send(const uint8_t *card, size_t card_len, const uint8_t *word, size_t word_len, uint8_t *items, size_t items_len,
                      uint64_t value[2]);

/*
 * The word of a frame control from all its received items: HPLC_FC_BYTES into `word`. Where twice the altered plus the lost carriers is
 * below the band's limit, 12, 12, 7 and 3 on bands 0 to 3, it is the word that was sent. Refusals 1, 2, 10, 3 (a payload card too), 4, 5,
 * 6, 7, 8.
 */
uint32_t hplc_fc_read(const uint8_t *card, size_t card_len, const uint8_t *items, size_t items_len, uint8_t *word, size_t word_len,
                      uint64_t value[2]);

/*
 * The items of a payload block of 72, 136, 264 or 520 bytes by the card's kind: 1, 2 or 4 items a carrier by its modulation, by
 * symbol, place and bit, copied as often as the card says; at most HPLC_PAYLOAD_ITEMS_MAX. With more than one copy some carriers at the
 * top of the band carry nothing, and their items are 0. Refusals 1, 2, 10, 3 (a frame-control card too), 4, 5.
 */
uint32_t hplc_payload_send(const uint8_t *card, size_t card_len, const uint8_t *block, size_t block_len, uint8_t *items,
                           size_t items_len, uint64_t value[2]);

/*
 * The block of a payload from all its received items. Where for each coded bit twice its wrong copies plus its lost ones is below the card's
 * copy count, it is the block that was sent. Items on carriers that carry nothing must be legal and have no vote. Refusals 1, 2, 10, 3 (a
 * frame-control card too), 4, 5, 6, 7, 8.
 */
uint32_t hplc_payload_read(const uint8_t *card, size_t card_len, const uint8_t *items, size_t items_len, uint8_t *block,
                           size_t block_len, uint64_t value[2]);

#ifdef __cplusplus
}
#endif

#endif
