/* Whether a plug-in's call takes as many instructions on one chip as on another that Non-secure may not tell from it (request 2026-10). The
   chips differ in what is secret of a key: its words, whether all its rows decoded, the entered key, the no-key state. In each group they have
   the same key level, come by in one way or another. Prints a line for each group and call, and exits 0 where all chips of each line have the
   same count and the same answer; else the line ends with the first chip that parts. */
#include "counted.h"
#include "otp.h"
#include "splash.h"

#include <stdio.h>
#include <string.h>

/* A page and its first row, and those of the splash card. */
enum { PAGE = 20, ROW = PAGE * OTP_PAGE_ROWS, CARD_PAGE = 3, FIRST_CARD_ROW = CARD_PAGE * OTP_PAGE_ROWS };
enum { WRITE_KEY = 1, READ_KEY = 2, WORDS = 8 };

static uint32_t rows[OTP_ROWS];
static otp_state state;
static otp_answer answer;
static otp_card card;

/* The page that the call at hand looks at, which the keys are of. */
static uint32_t page;

static void read_raw(void) { answer = otp_read_raw(rows, OTP_ROWS, state, OTP_NONSECURE, ROW); }
static void read_ecc(void) { answer = otp_read_ecc(rows, OTP_ROWS, state, OTP_NONSECURE, ROW); }
static void read_vote(void) { answer = otp_read_vote(rows, OTP_ROWS, state, OTP_NONSECURE, ROW, 8); }
static void write_raw(void) { answer = otp_write_raw(rows, OTP_ROWS, state, OTP_NONSECURE, ROW, 1).answer; }
static void write_ecc(void) { answer = otp_write_ecc(rows, OTP_ROWS, state, OTP_NONSECURE, ROW, 1).answer; }

/* A card has no answer of its own: its number stands there, and the card beside it. */
static void read_card(void)
{
    card = otp_read_card(rows, OTP_ROWS, state);
    answer.number = card.number;
}

static const struct {
    const char *name;
    void (*call)(void);
    uint32_t page;
} calls[] = {
    {"read raw", read_raw, PAGE},
    {"read ECC", read_ecc, PAGE},
    {"read a vote of 8", read_vote, PAGE},
    {"write raw", write_raw, PAGE},
    {"write ECC", write_ecc, PAGE},
    {"read a card", read_card, CARD_PAGE},
};

/* Blank rows, and for a read of a card one of version 2: 320 x 240, and 512 bytes in a line. */
static void lay_rows(void)
{
    static const uint32_t burnt[] = {0x225053, 0x2a004c, 0x250002, 0x060140, 0x2400f0, 0x0e0200};
    memset(rows, 0, sizeof rows);
    if (page == CARD_PAGE)
        memcpy(rows + FIRST_CARD_ROW, burnt, sizeof burnt);
}

/* A key's words: the first is what comes in, and the others go up from it. */
static void fill(uint16_t *words, uint16_t first)
{
    for (uint32_t i = 0; i < WORDS; i++)
        words[i] = (uint16_t)(first + 0x1111 * i);
}

static otp_key *key(uint32_t k) { return &state.keys[k - 1]; }

/* Both keys of the page, valid and whole, with other words in each; none is entered yet. */
static void store_keys(uint16_t first, bool nokey)
{
    otp_state start = OTP_START;
    state = start;
    state.writekey[page] = WRITE_KEY;
    state.readkey[page] = READ_KEY;
    state.nokey[page] = nokey;
    fill(key(WRITE_KEY)->words, first);
    fill(key(READ_KEY)->words, (uint16_t)(first + 1));
    key(WRITE_KEY)->valid = key(WRITE_KEY)->whole = key(READ_KEY)->valid = key(READ_KEY)->whole = true;
}

/* Chips on which no key matches: the entered key is the write key with one word wrong; or that key, or both, did not decode; or none is
   entered, and the write key is all zeros too. */
enum { UNMATCHED = WORDS + 4 };

static void unmatched(uint32_t which, bool nokey)
{
    store_keys(0x1234, nokey);
    fill(state.entered, 0x1234);
    if (which < WORDS) {
        state.entered[which] ^= 1;
    } else if (which == WORDS) {
        key(WRITE_KEY)->whole = false;
    } else if (which == WORDS + 1) {
        key(WRITE_KEY)->whole = key(READ_KEY)->whole = false;
    } else if (which == WORDS + 2) {
        memset(state.entered, 0, sizeof state.entered);
    } else {
        memset(state.entered, 0, sizeof state.entered);
        memset(key(WRITE_KEY)->words, 0, sizeof state.entered);
    }
}

/* Key level 2: no key matches, and the no-key state is 1. */
static void no_access(uint32_t which) { unmatched(which, true); }

/* Key level 1: no key matches, and the no-key state is 0; or the read key does, with either no-key state. */
static void read_only(uint32_t which)
{
    if (which < UNMATCHED) {
        unmatched(which, false);
        return;
    }
    store_keys(0x4321, which == UNMATCHED);
    memcpy(state.entered, key(READ_KEY)->words, sizeof state.entered);
}

/* Key level 0: the write key matches, whatever it is. */
static void read_and_write(uint32_t which)
{
    store_keys((uint16_t)(which + 1), which % 2 == 0);
    memcpy(state.entered, key(WRITE_KEY)->words, sizeof state.entered);
}

static const struct {
    const char *name;
    void (*make)(uint32_t which);
    uint32_t chips;
} groups[] = {
    {"key level 0", read_and_write, 8},
    {"key level 1", read_only, UNMATCHED + 2},
    {"key level 2", no_access, UNMATCHED},
};

/* One call on each chip of a group: the first gives the count, the answer and the card that the others must have. */
static bool even(size_t group, size_t call)
{
    const otp_answer no_answer = {0};
    const otp_card no_card = {0};
    uint32_t first = 0;
    otp_answer said;
    otp_card shown;
    page = calls[call].page;
    for (uint32_t which = 0; which < groups[group].chips; which++) {
        lay_rows();
        groups[group].make(which);
        answer = no_answer;
        card = no_card;
        uint32_t took = instructions(calls[call].call);
        if (which == 0) {
            first = took;
            said = answer;
            shown = card;
            printf("%s, %-16s number %u, %6u instructions", groups[group].name, calls[call].name, (unsigned)answer.number, (unsigned)took);
        }
        if (took != first || memcmp(&said, &answer, sizeof said) != 0 || memcmp(&shown, &card, sizeof shown) != 0) {
            printf("; chip %u: number %u, %u instructions\n", (unsigned)which, (unsigned)answer.number, (unsigned)took);
            return false;
        }
    }
    printf(", on all %u chips\n", (unsigned)groups[group].chips);
    return true;
}

int main(void)
{
    bool all = true;
    core_count();
    for (size_t group = 0; group < sizeof groups / sizeof groups[0]; group++)
        for (size_t call = 0; call < sizeof calls / sizeof calls[0]; call++)
            all = even(group, call) && all;
    return all ? 0 : 1;
}
