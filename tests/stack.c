/*
 * How much stack each call takes: the call runs on a stack of its own that was filled with a pattern, and what lost the pattern is
 * counted, over every defined mode and copy count and both versions of a card. Fails where a call takes more than include/hplc.h states,
 * or where that states a good deal more.
 */
#include <stdio.h>
#include <string.h>
#include <ucontext.h>

#include "hplc.h"

#define STACK 131072
#define PATTERN 0xA5
/* What a statement may have above the measure. */
#define SLACK 1024

static uint8_t stack[STACK];
static ucontext_t caller, callee;

static uint8_t card[HPLC_CARD_2_BYTES];
static uint8_t items[HPLC_PAYLOAD_ITEMS_MAX];
static uint8_t bytes[HPLC_PAYLOAD_BYTES_MAX];
static uint8_t out[HPLC_PAYLOAD_ITEMS_MAX];
static uint64_t fields[HPLC_CARD_FIELDS];
static uint64_t value[2];
static double point[2];
static size_t card_len, bytes_len, items_len;
static uint64_t version, copies;
static uint32_t number;

static void nothing(void) {}

static void card_read(void) { number = hplc_card_read(card, card_len, fields, HPLC_CARD_FIELDS, value); }

static void card_write(void) { number = hplc_card_write(version, 0, 0, 0, 1, 1095, 0, 7, 1, 1, out, sizeof out, value); }

static void card_move(void) { number = hplc_card_move(card, card_len, 3 - version, out, sizeof out, value); }

static void card_text(void) { number = hplc_card_text(card, card_len, out, sizeof out, value); }

static void map(void) { number = hplc_map(2, (const uint8_t *)"\0\1\0\1", 4, point, 2, value); }

static void slice(void) { number = hplc_slice(2, 1, 0.3, -0.9, out, sizeof out, value); }

static void place(void) { number = hplc_place_of_sub_carrier(0, 81, value); }

static void sub_carrier(void) { number = hplc_sub_carrier_of_place(0, 1, value); }

static void fc_send(void) { number = hplc_fc_send(card, card_len, bytes, bytes_len, out, sizeof out, value); }

static void fc_read(void) { number = hplc_fc_read(card, card_len, items, items_len, out, sizeof out, value); }

static void payload_send(void) { number = hplc_payload_send(card, card_len, bytes, bytes_len, out, sizeof out, value); }

static void payload_read(void) { number = hplc_payload_read(card, card_len, items, items_len, out, sizeof out, value); }

/* The bytes of its own stack that a call has written to. */
static size_t touched(void (*call)(void))
{
    size_t kept = 0;
    memset(stack, PATTERN, sizeof stack);
    getcontext(&callee);
    callee.uc_stack.ss_sp = stack;
    callee.uc_stack.ss_size = sizeof stack;
    callee.uc_link = &caller;
    makecontext(&callee, call, 0);
    swapcontext(&caller, &callee);
    while (kept < sizeof stack && stack[kept] == PATTERN)
        kept++;
    return sizeof stack - kept;
}

static size_t most(size_t a, size_t b) { return a < b ? b : a; }

/* What a call takes beyond what an empty one takes. */
static size_t taken(void (*call)(void))
{
    size_t empty = touched(nothing);
    size_t all = touched(call);
    return all < empty ? 0 : all - empty;
}

/* A card of the version and the copies that are looked at; whether there is one. */
static int write_card(unsigned band, unsigned kind, unsigned rate, unsigned modulation)
{
    uint32_t n = hplc_card_write(version, band, kind, rate, modulation, 1095, 0, UINT64_MAX, 1, copies, card, sizeof card, value);
    card_len = (size_t)value[0];
    return n == HPLC_DONE;
}

/* The most that sending and reading take, over the modes of some kinds with so many copies. */
static void over_modes(unsigned first, unsigned last, void (*send)(void), void (*read)(void), size_t *sent, size_t *back)
{
    static const size_t sizes[5] = {16, 72, 136, 264, 520};
    unsigned mode;
    for (mode = 0; mode < 256; mode++) {
        unsigned band = mode >> 6, kind = mode >> 3 & 7, rate = mode >> 2 & 1, modulation = mode & 3;
        if (kind < first || kind > last || !write_card(band, kind, rate, modulation))
            continue;
        bytes_len = sizes[kind];
        *sent = most(*sent, taken(send));
        if (number != HPLC_DONE)
            printf("mode %u was refused by %u\n", mode, (unsigned)number);
        items_len = (size_t)value[0];
        memcpy(items, out, items_len);
        *back = most(*back, taken(read));
        if (number != HPLC_DONE)
            printf("mode %u was refused by %u\n", mode, (unsigned)number);
    }
}

static int failed;

static void state(const char *name, size_t measured, size_t stated)
{
    int good = measured <= stated && stated < measured + SLACK;
    printf("%-24s %6zu bytes, stated %6zu%s\n", name, measured, stated, good ? "" : " WRONG");
    failed |= !good;
}

int main(void)
{
    size_t frame_sent = 0, frame_back = 0, sent = 0, back = 0;
    size_t cards = 0, points, places;
    for (version = 1; version <= 2; version++) {
        copies = 1;
        write_card(0, 4, 1, 1);
        cards = most(cards, most(taken(card_read), taken(card_write)));
        cards = most(cards, most(taken(card_move), taken(card_text)));
        over_modes(0, 0, fc_send, fc_read, &frame_sent, &frame_back);
        for (copies = 1; copies <= 11; copies++)
            over_modes(1, 4, payload_send, payload_read, &sent, &back);
    }
    points = most(taken(map), taken(slice));
    places = most(taken(place), taken(sub_carrier));
    state("cards", cards, HPLC_STACK_CARD);
    state("points and places", most(points, places), HPLC_STACK_POINT);
    state("hplc_fc_send", frame_sent, HPLC_STACK_FC_SEND);
    state("hplc_fc_read", frame_back, HPLC_STACK_FC_READ);
    state("hplc_payload_send", sent, HPLC_STACK_PAYLOAD_SEND);
    state("hplc_payload_read", back, HPLC_STACK_PAYLOAD_READ);
    return failed;
}
