/* The most stack that each call of libotp.a and of libsplash.a uses, for docs/TIMINGS.md. It is measured: the call runs on a stack of its
   own that was painted before. Each call is made on a board of 512 burnt rows, by Secure, and is done (number 0). The job that is made burns these 512
   rows into a blank board. A repair pass goes over a page of the board with the lowest 1 of each of its rows worn away, and over all rows
   that a list can have. A card of version 2 is written, and read from a board on which it alone is burnt. */
#include <stdio.h>
#include <string.h>
#include <ucontext.h>
#include "splash.h"

enum { ROWS = 4096, LISTED = 0xf40, JOB = 7 + 6 * 512, STACK = 65536 };

static uint32_t blank[ROWS], burnt[ROWS], worn[ROWS], card[ROWS], rows[ROWS], list[LISTED], report[LISTED];
static uint8_t job[JOB], area[OTP_AREA_BYTES], out[OTP_JOB_BYTES], key[16] = {1};
static const otp_note none, all = {.counted = JOB};
static otp_state state;
static otp_answer answer;

static void keep(otp_outcome o) { answer = o.answer; }

static void nothing(void) {}
static void reset(void) { keep(otp_reset(rows, ROWS, state)); }
static void read_raw(void) { answer = otp_read_raw(rows, ROWS, state, 0, 7); }
static void read_ecc(void) { answer = otp_read_ecc(rows, ROWS, state, 0, 7); }
static void read_vote(void) { answer = otp_read_vote(rows, ROWS, state, 0, 8, 8); }
static void write_raw(void) { keep(otp_write_raw(rows, ROWS, state, 0, 8, 0xff)); }
static void write_ecc(void) { keep(otp_write_ecc(rows, ROWS, state, 0, 8, 0x5053)); }
static void advance(void) { keep(otp_advance(state, 0, 0, 9, 1)); }
static void show(void) { answer = otp_show(state, 0, 0, 9); }
static void enter_key(void) { keep(otp_enter_key(state, 0, key, sizeof key)); }
static void run_job(void) { keep(otp_run_job(rows, ROWS, state, job, JOB)); }
static void rehearse(void) { keep(otp_rehearse(rows, ROWS, state, job, JOB, 2700)); }
static void take_byte(void) { answer = otp_take_chunk(area, sizeof area, none, job, 1).answer; }
static void take_chunk(void) { answer = otp_take_chunk(area, sizeof area, none, job, JOB).answer; }
static void end_job(void) { keep(otp_end_job(rows, ROWS, state, area, sizeof area, all)); }
static void make_job(void) { answer = otp_make_job(rows, ROWS, burnt, ROWS, out, sizeof out); }
static void repair_64(void) { keep(otp_repair(rows, ROWS, state, list + 9 * OTP_PAGE_ROWS, OTP_PAGE_ROWS, report, LISTED)); }
static void repair_all(void) { keep(otp_repair(rows, ROWS, state, list, LISTED, report, LISTED)); }
static void next_entry(void) { answer.number = otp_next_entry(job, JOB, 7).number; }
static void read_card(void) { answer.number = otp_read_card(rows, ROWS, state).number; }
static void write_card(void) { answer = otp_write_card(out, sizeof out, 2, 320, 240, 1024); }

static const struct { const char *name; void (*call)(void); const uint32_t *board; } calls[] = {
    {"reset", reset, burnt}, {"read raw", read_raw, burnt}, {"read ECC", read_ecc, burnt},
    {"read a vote of 8", read_vote, burnt}, {"write raw", write_raw, burnt}, {"write ECC", write_ecc, burnt},
    {"advance a lock", advance, burnt}, {"show a lock", show, burnt}, {"enter a key", enter_key, burnt},
    {"run a job of 512", run_job, blank}, {"rehearse, 2,700 pulses", rehearse, blank},
    /* What is ended is the job that the chunk before it left in the area. */
    {"take a byte", take_byte, burnt}, {"take a job of 512", take_chunk, burnt}, {"end a job of 512", end_job, blank},
    {"make a job of 512", make_job, blank}, {"read an entry", next_entry, burnt},
    {"repair 64 rows", repair_64, worn}, {"repair 3,904 rows", repair_all, worn},
    {"read a card", read_card, card}, {"write a card", write_card, blank},
};

static size_t stack_used(void (*call)(void), const uint32_t *board)
{
    static unsigned char stack[STACK];
    ucontext_t here, there;
    size_t untouched = 0;
    memcpy(rows, board, sizeof rows);
    memset(stack, 0xa5, sizeof stack);
    getcontext(&there);
    there.uc_stack.ss_sp = stack;
    there.uc_stack.ss_size = sizeof stack;
    there.uc_link = &here;
    makecontext(&there, call, 0);
    swapcontext(&here, &there);
    while (untouched < STACK && stack[untouched] == 0xa5)
        untouched++;
    return STACK - untouched;
}

int main(void)
{
    memcpy(job, "\x4f\x54\x4a\x01\x00\x00\x02", 7);
    for (unsigned i = 0; i < 512; i++) {
        unsigned row = 7 * i, value = 129 * i % 65536;
        uint8_t entry[6] = {(uint8_t)(row % 256), (uint8_t)(row / 256), 0, (uint8_t)(value % 256), (uint8_t)(value / 256), 0};
        memcpy(job + 7 + 6 * i, entry, sizeof entry);
    }
    run_job();
    memcpy(burnt, rows, sizeof rows);
    for (unsigned row = 0; row < LISTED; row++) {
        list[row] = row;
        worn[row] = burnt[row] & (burnt[row] - 1);
    }
    memset(rows, 0, sizeof rows);
    write_card();
    keep(otp_run_job(rows, ROWS, state, out, OTP_CARD_JOB_BYTES));
    memcpy(card, rows, sizeof rows);
    size_t empty = stack_used(nothing, blank);
    printf("call                   bytes of stack\n");
    for (size_t i = 0; i < sizeof calls / sizeof calls[0]; i++) {
        size_t stack = stack_used(calls[i].call, calls[i].board) - empty;
        if (answer.number != 0) {
            printf("%s was refused with %u\n", calls[i].name, (unsigned)answer.number);
            return 1;
        }
        printf("%-22s %14zu\n", calls[i].name, stack);
    }
    return 0;
}
