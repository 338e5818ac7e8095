/*
 * The worked examples of the copied payload (docs/DECISIONS.md, D27), seen from outside: many blocks are sent once and copied, and an item
 * carries the coded bit that it equals in all of them. Sent once, item b is coded bit b. An item that is 0 in all of them carries none.
 *
 * For each row it prints band, modulation, kind, rate and copies, then the used carriers, the bits of a group, the pad, the symbols, the items
 * and F.
 */
#include <stdio.h>
#include <stdlib.h>

#include "hplc.h"

#define BLOCKS 64
#define CODED_MAX 8320

/* A coded bit: what it is in each block, and its number. */
struct coded {
    uint64_t seen;
    uint64_t bit;
};

static const uint64_t carriers[4] = {411, 131, 89, 49};
static const uint64_t bits[3] = {1, 2, 4};
static const size_t sizes[5] = {16, 72, 136, 264, 520};
static const uint64_t coded_bits[2][5] = {{256, 1152, 2176, 4224, 8320}, {0, 0, 0, 0, 4680}};

static uint8_t block[HPLC_PAYLOAD_BYTES_MAX];
static uint8_t items[HPLC_PAYLOAD_ITEMS_MAX];
static uint64_t once[HPLC_PAYLOAD_ITEMS_MAX], copied[HPLC_PAYLOAD_ITEMS_MAX];
static struct coded coded[CODED_MAX];
static uint64_t copies_of[CODED_MAX];
static uint64_t random_state;

static uint64_t random_number(void)
{
    random_state = random_state * 6364136223846793005u + 1442695040888963407u;
    return random_state >> 33;
}

static void fail(const char *what)
{
    printf("%s\n", what);
    exit(1);
}

/* The items of all blocks in one mode, a block to a bit; how many items there are. */
static uint64_t send_all(const uint64_t mode[5], uint64_t copies, uint64_t *seen)
{
    uint8_t card[HPLC_CARD_2_BYTES];
    uint64_t value[2], n, b, k;
    if (hplc_card_write(2, mode[0], mode[2], mode[3], mode[1], 1095, 0, 7, 1, copies, card, sizeof card, value) != HPLC_DONE)
        fail("a card was refused");
    random_state = 1;
    for (k = 0; k < BLOCKS; k++) {
        for (b = 0; b < sizes[mode[2]]; b++)
            block[b] = (uint8_t)random_number();
        if (hplc_payload_send(card, sizeof card, block, sizes[mode[2]], items, sizeof items, value) != HPLC_DONE)
            fail("a block was refused");
        for (n = 0; n < value[0]; n++)
            seen[n] = (k == 0 ? 0 : seen[n]) | (uint64_t)items[n] << k;
    }
    return value[0];
}

static int by_seen(const void *a, const void *b)
{
    uint64_t x = ((const struct coded *)a)->seen, y = ((const struct coded *)b)->seen;
    return x < y ? -1 : x > y;
}

/* The coded bits of a mode by what is seen of them, each apart from all others. */
static void find_coded(uint64_t count)
{
    uint64_t b;
    for (b = 0; b < count; b++) {
        coded[b].seen = once[b];
        coded[b].bit = b;
        copies_of[b] = 0;
    }
    qsort(coded, count, sizeof coded[0], by_seen);
    for (b = 0; b < count; b++)
        if (coded[b].seen == 0 || (b > 0 && coded[b - 1].seen == coded[b].seen))
            fail("coded bits are not told apart");
}

static void print_row(const uint64_t mode[5])
{
    uint64_t per_symbol = carriers[mode[0]] * bits[mode[1]], count = coded_bits[mode[3]][mode[2]];
    uint64_t length, n, b, used = 0, padded = 0, f = 0;
    send_all(mode, 1, once);
    find_coded(count);
    length = send_all(mode, mode[4], copied);
    for (n = 0; n < length; n++) {
        struct coded key = {copied[n], 0}, *found;
        if (copied[n] == 0)
            continue;
        found = bsearch(&key, coded, count, sizeof coded[0], by_seen);
        if (found == NULL)
            fail("an item is no coded bit");
        if (used <= n % per_symbol / bits[mode[1]])
            used = n % per_symbol / bits[mode[1]] + 1;
        copies_of[found->bit]++;
        f = (f + (n + 1) * (found->bit + 1)) % 1000003;
    }
    for (b = 0; b < count; b++) {
        if (copies_of[b] != mode[4] && copies_of[b] != mode[4] + 1)
            fail("a coded bit has another number of copies");
        if (b > 0 && copies_of[b] > copies_of[b - 1])
            fail("a pad does not start at bit 0");
        padded += copies_of[b] > mode[4];
    }
    printf("%u %u %u %u %u:", (unsigned)mode[0], (unsigned)mode[1], (unsigned)mode[2], (unsigned)mode[3], (unsigned)mode[4]);
    printf(" %u %u %u", (unsigned)used, (unsigned)(used / mode[4] * bits[mode[1]]), (unsigned)(padded / mode[4]));
    printf(" %u %u %u\n", (unsigned)(length / per_symbol), (unsigned)length, (unsigned)f);
}

int main(void)
{
    uint64_t mode[5];
    unsigned m[5];
    int k;
    while (scanf("%u %u %u %u %u", &m[0], &m[1], &m[2], &m[3], &m[4]) == 5) {
        for (k = 0; k < 5; k++)
            mode[k] = m[k];
        print_row(mode);
    }
    return 0;
}
