/* The chips that desk/measure.c measures on, made by the calls themselves.

   The board: 512 rows burnt by a job, key 1 burnt and valid, one page behind it, and the key entered. The full chip: every row below
   0xf40 burnt, all six keys whole with a bit of each row worn away, every page locked and registered. The worn chip: every row below 0xf40
   burnt, in either polarity, of which one in four lost a 1, and the others are clean, have a 1 too many or a worn flag bit, or are damaged. And
   two with nothing on them but a splash card, of version 1 and of version 2. */
#ifndef CHIPS_H
#define CHIPS_H

#include "otp.h"
#include "splash.h"

#include <string.h>

enum {
    ENTRIES = 512,
    HEAD = 7,
    JOB = HEAD + 6 * ENTRIES,
    KEYED_PAGE = 20,
    FIRST_KEPT_ROW = 0xf40,
    FIRST_KEY_ROW = 0xf48,
    FIRST_VALID_ROW = 0xf79,
    FIRST_LOCK_ROW = 0xf80,
};

static const uint32_t blank[OTP_ROWS];
static uint32_t board[OTP_ROWS], full[OTP_ROWS], further[OTP_ROWS], worn[OTP_ROWS], list[FIRST_KEPT_ROW];
static uint32_t carded[OTP_ROWS], lined[OTP_ROWS];
static uint8_t job[JOB], key[OTP_KEY_BYTES];
static otp_state board_state;

/* The chip that calls are made on, its state, and the last answer. */
static uint32_t rows[OTP_ROWS];
static otp_state state;
static otp_answer answer;

/* Keeps what an outcome holds, as a firmware would. */
#define KEEP(call)                \
    do {                          \
        otp_outcome made = call;  \
        answer = made.answer;     \
        state = made.state;       \
    } while (0)

static void reset(void) { KEEP(otp_reset(rows, OTP_ROWS, state)); }
static void enter_key(void) { KEEP(otp_enter_key(state, OTP_SECURE, key, OTP_KEY_BYTES)); }
static void run_job(void) { KEEP(otp_run_job(rows, OTP_ROWS, state, job, JOB)); }

/* Every seventh row, ECC, with values that spread over the 16 bits. */
static void write_job(void)
{
    memcpy(job, "\x4f\x54\x4a\x01\x00\x00\x02", HEAD);
    for (uint32_t i = 0; i < ENTRIES; i++) {
        uint32_t row = 7 * i, value = 129 * i;
        uint8_t entry[6] = {(uint8_t)row, (uint8_t)(row >> 8), 0, (uint8_t)value, (uint8_t)(value >> 8), 0};
        memcpy(job + HEAD + 6 * i, entry, sizeof entry);
    }
}

/* Burns key k, counted from 0, and its valid flag; the words go up from 0x1234. */
static void burn_key(uint32_t k)
{
    for (uint32_t i = 0; i < 8; i++)
        KEEP(otp_write_ecc(rows, OTP_ROWS, state, OTP_SECURE, FIRST_KEY_ROW + 8 * k + i, 0x1234 + i));
    KEEP(otp_write_raw(rows, OTP_ROWS, state, OTP_SECURE, FIRST_VALID_ROW + k, 0x010101));
}

static void make_board(void)
{
    write_job();
    run_job();
    burn_key(0);
    KEEP(otp_write_raw(rows, OTP_ROWS, state, OTP_SECURE, FIRST_LOCK_ROW + 2 * KEYED_PAGE, 0x010101));
    for (uint32_t i = 0; i < 8; i++) {
        key[2 * i] = (uint8_t)(0x34 + i);
        key[2 * i + 1] = 0x12;
    }
    memcpy(board, rows, sizeof rows);
    reset();
    enter_key();
    board_state = state;
}

static void burn_every_row(void)
{
    for (uint32_t row = 0; row < FIRST_KEPT_ROW; row++)
        KEEP(otp_write_ecc(rows, OTP_ROWS, state, OTP_SECURE, row, row * 15));
}

/* The worn chip, of the rows as they are, and the list of all of them. */
static void wear_every_row(void)
{
    for (uint32_t row = 0; row < FIRST_KEPT_ROW; row++) {
        uint32_t whole = rows[row], lost = whole & (whole - 1), more = whole | (whole + 1);
        const uint32_t sorts[8] = {whole, lost, lost, lost, more, whole, whole ^ 0x400000, whole ^ 3};
        list[row] = row;
        worn[row] = sorts[row % 8] ^ (row / 8 % 2 == 0 ? 0 : 0xffffff);
    }
}

/* Each key, with the lowest set bit of each of its rows worn away. */
static void burn_worn_keys(void)
{
    for (uint32_t k = 0; k < 6; k++)
        burn_key(k);
    for (uint32_t row = FIRST_KEY_ROW; row < FIRST_KEY_ROW + 48; row++)
        rows[row] &= rows[row] - 1;
}

/* Each page: write key 1, read key 2 and no access without, and read only for every caller. */
static void burn_locks(void)
{
    for (uint32_t row = FIRST_LOCK_ROW; row < OTP_ROWS; row++)
        KEEP(otp_write_raw(rows, OTP_ROWS, state, OTP_SECURE, row, row % 2 == 0 ? 0x515151 : 0x151515));
}

static void make_full(void)
{
    otp_state start = OTP_START;
    memset(rows, 0, sizeof rows);
    state = start;
    burn_every_row();
    wear_every_row();
    burn_worn_keys();
    burn_locks();
    memcpy(full, rows, sizeof rows);
    memcpy(further, rows, sizeof rows);
    for (uint32_t i = 0; i < ENTRIES; i++)
        further[7 * i] |= further[7 * i] + 1;
}

/* Burns a card on a blank chip. */
static void make_carded(uint32_t *chip, uint32_t version)
{
    uint8_t burning[OTP_CARD_JOB_BYTES];
    otp_state start = OTP_START;
    memset(rows, 0, sizeof rows);
    uint32_t bytes = otp_write_card(burning, sizeof burning, version, OTP_CARD_WIDEST, OTP_CARD_HIGHEST, OTP_CARD_LONGEST_LINE).value;
    KEEP(otp_run_job(rows, OTP_ROWS, start, burning, bytes));
    memcpy(chip, rows, sizeof rows);
}

#endif
