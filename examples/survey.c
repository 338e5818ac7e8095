/*
 * How many carriers of one coded bit may be lost: sends a word as a frame control on band 0, then loses the carriers of coded bit 27
 * one after the other and reads the word back each time, until it is refused.
 */
#include <stdio.h>
#include <string.h>

#include "hplc.h"

#define PLACES 411
#define SYMBOLS 4
#define BIT 27

static const unsigned offsets[SYMBOLS] = {0, 192, 160, 96};

/* Whether the carrier at a place of a symbol carries the bit, on lane I or on lane Q. */
static int carries(unsigned symbol, unsigned place)
{
    unsigned i = (place + offsets[symbol]) % 256;
    unsigned q = (i + 128) % 256;
    return i == BIT || q == BIT;
}

static void report(unsigned lost, uint32_t number, const uint64_t value[2], int whole)
{
    if (number == HPLC_DONE)
        printf("%2u carriers lost: the word %s\n", lost, whole ? "comes back" : "comes back CHANGED");
    else
        printf("%2u carriers lost: refused %u, value %llu\n", lost, (unsigned)number, (unsigned long long)value[0]);
}

int main(void)
{
    static uint8_t items[HPLC_FC_ITEMS_BAND_0];
    const uint8_t word[HPLC_FC_BYTES] = "a pump house, 1";
    uint8_t first[HPLC_CARD_BYTES];
    uint8_t card[HPLC_CARD_2_BYTES];
    uint8_t back[HPLC_FC_BYTES];
    uint64_t value[2];
    unsigned symbol, place, lost = 0;

    if (hplc_version() != HPLC_VERSION)
        return 1;
    if (hplc_card_write(1, 0, 0, 0, 1, 0x447, 0, 9007199254740993u, 1, 1, first, sizeof first, value) != HPLC_DONE)
        return 1;
    /* The same card in version 2. Every call takes both. */
    if (hplc_card_move(first, sizeof first, 2, card, sizeof card, value) != HPLC_DONE)
        return 1;
    if (hplc_fc_send(card, sizeof card, word, sizeof word, items, sizeof items, value) != HPLC_DONE)
        return 1;
    for (symbol = 0; symbol < SYMBOLS; symbol++) {
        for (place = 0; place < PLACES; place++) {
            uint32_t number;
            if (!carries(symbol, place))
                continue;
            memset(items + 2 * (symbol * PLACES + place), 2, 2);
            lost++;
            number = hplc_fc_read(card, sizeof card, items, sizeof items, back, sizeof back, value);
            report(lost, number, value, memcmp(word, back, sizeof word) == 0);
        }
    }
    return 0;
}
