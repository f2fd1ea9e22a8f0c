/* The chips that desk/calls.c begins with: burnt by calls, worn, and now and then with what no chip would have. */
#ifndef NEW_CHIP_H
#define NEW_CHIP_H

#include "chance.h"
#include "kept.h"
#include "otp.h"

#include <string.h>

/* The key that was burnt last. */
static uint8_t key[OTP_KEY_BYTES];

/* Flips a flag bit of a row, another bit, or both, or neither. */
static void wear(uint32_t row)
{
    uint32_t flag = below(3), bit = below(44);
    rows[row] ^= (flag == 0 ? 0 : 1u << (21 + flag)) | (bit < 22 ? 1u << bit : 0);
}

/* Burns a lock word of a page, three copies of one byte, one bit of it now and then worn away. */
static void burn_lock(uint32_t row, uint32_t byte)
{
    uint32_t worn = once_in(2) ? 1u << below(24) : 0;
    keep(WRITE_RAW, OTP_SECURE, otp_write_raw(rows, OTP_ROWS, state, OTP_SECURE, row, byte * 0x010101 & ~worn));
}

/* Burns one of the six keys and its valid flag, and registers it for a page. */
static void burn_key(void)
{
    uint32_t k = below(6), page = below(4), other = below(8), no_key = below(2);
    fill(key, sizeof key);
    for (uint32_t i = 0; i < 8; i++) {
        uint32_t word = key[2 * i] + 256u * key[2 * i + 1];
        keep(WRITE_ECC, OTP_SECURE, otp_write_ecc(rows, OTP_ROWS, state, OTP_SECURE, FIRST_KEY_ROW + 8 * k + i, word));
    }
    keep(WRITE_RAW, OTP_SECURE, otp_write_raw(rows, OTP_ROWS, state, OTP_SECURE, FIRST_VALID_ROW + k, 0x010101));
    burn_lock(FIRST_LOCK_ROW + 2 * page, k + 1 + 8 * other + 64 * no_key);
}

/* Any state, but that each bool is 0 or 1. */
static void any_state(void)
{
    fill(&state, sizeof state);
    for (uint32_t page = 0; page < OTP_PAGES; page++)
        state.nokey[page] = once_in(2);
    for (uint32_t k = 0; k < sizeof state.keys / sizeof state.keys[0]; k++) {
        state.keys[k].valid = once_in(2);
        state.keys[k].whole = once_in(2);
    }
}

/* Any tallies beside locks that came of a reset: most of the states above let nothing be burnt. */
static void any_tallies(void)
{
    for (uint32_t page = 0; page < OTP_PAGES; page++)
        state.tallies[page] = some_tally();
}

/* Puts a number from `least` up into some rows that are used often. */
static void sprinkle(uint32_t count, uint32_t least)
{
    for (uint32_t i = 0; i < count; i++) {
        uint32_t row = often_used(), more = once_in(4) ? 0 : chance() & 0xffffff;
        rows[row] = least + more;
    }
}

/* A blank row with a stray bit is what an ECC write is inverted over. */
static void wear_often_used(void)
{
    for (uint32_t i = 0; i < 8; i++)
        wear(often_used());
}

/* A new chip: blank, then perhaps with a key, with locks, with stray bits, with rows of any bits, with entries that no chip has, with any
   tallies, or with any state. */
static void new_chip(void)
{
    otp_state start = OTP_START;
    uint32_t page = below(4), byte = below(256);
    memset(rows, 0, sizeof rows);
    state = start;
    if (once_in(2))
        burn_key();
    if (once_in(2))
        burn_lock(FIRST_LOCK_ROW + 1 + 2 * page, byte);
    if (once_in(2))
        wear_often_used();
    if (once_in(2))
        sprinkle(4, 0);
    keep(RESET, NO_CALLER, otp_reset(rows, OTP_ROWS, state));
    if (once_in(4))
        sprinkle(4, 0x1000000);
    if (once_in(4))
        any_tallies();
    if (once_in(8))
        any_state();
}

#endif
