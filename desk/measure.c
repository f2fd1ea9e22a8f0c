/* The instructions and the most stack that each call of libotp.a and libsplash.a takes on a core of the desk, for docs/TIMINGS.md. Both are measured: the
   emulator counts the instructions, and the call is made once more on a stack of its own that was painted before. Each call is made by
   Secure, but for one read by the bootloader, and is done (number 0). What C does to pass the state and to take it back is part of the call.
   The job of 512 comes in one chunk too, which its end follows; and of its bytes one by one, in a hundred calls, the first hundred of its
   entries and the last hundred of all. A job is made of the full chip and of one with 512 rows burnt further, and of two that are equal,
   and is read entry by entry. A repair pass goes over the rows of a page of the worn chip, and over all that a list can have. A card is read,
   which is done as Non-secure, and on a blank chip it is refused: there is none. The last two are no calls: how a screen comes by the bits burnt
   in a page of the board, with the tallies and without. The chips are those of chips.h. */
#include "chips.h"
#include "counted.h"
#include "otp.h"
#include "splash.h"

#include <stdio.h>
#include <string.h>

enum { HUNDRED = 100, HALF_THE_PULSES = 2700, KEYED_ROW = 1281, STACK = 16384 };

static uint8_t area[OTP_AREA_BYTES], out[OTP_JOB_BYTES];
static uint32_t report[FIRST_KEPT_ROW];
static otp_note note;

static void read_raw(void) { answer = otp_read_raw(rows, OTP_ROWS, state, OTP_SECURE, 7); }
static void read_as_bootloader(void) { answer = otp_read_raw(rows, OTP_ROWS, state, OTP_BOOTLOADER, 7); }
static void read_ecc(void) { answer = otp_read_ecc(rows, OTP_ROWS, state, OTP_SECURE, 7); }
static void read_keyed(void) { answer = otp_read_ecc(rows, OTP_ROWS, state, OTP_SECURE, KEYED_ROW); }
static void read_vote_3(void) { answer = otp_read_vote(rows, OTP_ROWS, state, OTP_SECURE, 8, 3); }
static void read_vote_8(void) { answer = otp_read_vote(rows, OTP_ROWS, state, OTP_SECURE, 8, 8); }
static void write_raw(void) { KEEP(otp_write_raw(rows, OTP_ROWS, state, OTP_SECURE, 8, 0xff)); }
static void write_ecc(void) { KEEP(otp_write_ecc(rows, OTP_ROWS, state, OTP_SECURE, 8, 0x5053)); }
static void advance(void) { KEEP(otp_advance(state, OTP_SECURE, OTP_SECURE, 9, OTP_READ_ONLY)); }
static void show(void) { answer = otp_show(state, OTP_SECURE, OTP_SECURE, 9); }
static void rehearse(void) { KEEP(otp_rehearse(rows, OTP_ROWS, state, job, JOB, HALF_THE_PULSES)); }

/* Takes the bytes of the job that come next, as one chunk. */
static void take(uint32_t bytes)
{
    otp_taken made = otp_take_chunk(area, sizeof area, note, job + note.counted, bytes);
    answer = made.answer;
    note = made.note;
}

static void take_job(void) { take(JOB); }
static void end_job(void) { KEEP(otp_end_job(rows, OTP_ROWS, state, area, sizeof area, note)); }

static void take_and_end(void)
{
    take_job();
    end_job();
}

static void take_hundred(void)
{
    for (uint32_t i = 0; i < HUNDRED; i++)
        take(1);
}

static void make_job(void) { answer = otp_make_job(rows, OTP_ROWS, further, OTP_ROWS, out, sizeof out); }
static void make_none(void) { answer = otp_make_job(rows, OTP_ROWS, rows, OTP_ROWS, out, sizeof out); }

/* Reads one entry, and all of them. */
static void read_entry(void) { answer.number = otp_next_entry(job, JOB, HEAD).number; }

static void read_job(void)
{
    otp_entry entry = otp_next_entry(job, JOB, HEAD);
    while (!entry.end && entry.number == OTP_DONE)
        entry = otp_next_entry(job, JOB, entry.at);
    answer.number = entry.number;
}

/* Repairs so many rows, from one on. */
static void repair(uint32_t first, uint32_t count) { KEEP(otp_repair(rows, OTP_ROWS, state, list + first, count, report, FIRST_KEPT_ROW)); }

static void repair_page(void) { repair(OTP_PAGE_ROWS * KEYED_PAGE, OTP_PAGE_ROWS); }
static void repair_all(void) { repair(0, FIRST_KEPT_ROW); }

/* Reads the card, which must give this number. */
static void read_card(uint32_t number) { answer.number = otp_read_card(rows, OTP_ROWS, state).number == number ? OTP_DONE : OTP_REFUSED_ARGUMENT; }

static void read_good_card(void) { read_card(OTP_DONE); }
static void read_no_card(void) { read_card(OTP_REFUSED_MARK); }
static void write_card(void) { answer = otp_write_card(out, sizeof out, 2, OTP_CARD_WIDEST, OTP_CARD_HIGHEST, OTP_CARD_LONGEST_LINE); }

/* A screen's question, how many bits of a page are burnt: looked up, and as it would be counted without tallies. */
static void burnt(uint32_t bits)
{
    answer.number = OTP_DONE;
    answer.value = bits;
}

static void look_up(void) { burnt(state.tallies[KEYED_PAGE]); }

static void count(void)
{
    uint32_t bits = 0;
    for (uint32_t row = 0; row < OTP_PAGE_ROWS; row++)
        bits += (uint32_t)__builtin_popcount(rows[OTP_PAGE_ROWS * KEYED_PAGE + row]);
    burnt(bits);
}

/* Each call, the chip that it is made on, and how many bytes of the job were taken before. */
static const struct {
    const char *name;
    void (*call)(void);
    const uint32_t *chip;
    uint32_t taken;
} calls[] = {
    {"reset of a blank chip", reset, blank, 0},
    {"reset of a full chip", reset, full, 0},
    {"read raw", read_raw, board, 0},
    {"read raw as bootloader", read_as_bootloader, board, 0},
    {"read ECC", read_ecc, board, 0},
    {"read ECC behind a key", read_keyed, board, 0},
    {"read a vote of 3", read_vote_3, board, 0},
    {"read a vote of 8", read_vote_8, board, 0},
    {"write raw", write_raw, board, 0},
    {"write ECC", write_ecc, board, 0},
    {"advance a lock", advance, board, 0},
    {"show a lock", show, board, 0},
    {"enter a key", enter_key, board, 0},
    {"run a job of 512", run_job, blank, 0},
    {"rehearse 2,700 pulses", rehearse, blank, 0},
    {"take a job as one chunk", take_job, blank, 0},
    {"end a job of 512", end_job, blank, JOB},
    {"take and end a job", take_and_end, blank, 0},
    {"first 100 entry bytes", take_hundred, blank, HEAD},
    {"last 100 of 3,079 bytes", take_hundred, blank, JOB - HUNDRED},
    {"make a job of 512", make_job, full, 0},
    {"make a job of none", make_none, full, 0},
    {"read an entry", read_entry, board, 0},
    {"read a job of 512", read_job, board, 0},
    {"repair 64 rows", repair_page, worn, 0},
    {"repair 3,904 rows", repair_all, worn, 0},
    {"read a version 1 card", read_good_card, carded, 0},
    {"read a version 2 card", read_good_card, lined, 0},
    {"read where there is none", read_no_card, blank, 0},
    {"write a card", write_card, board, 0},
    {"bits burnt, looked up", look_up, board, 0},
    {"bits burnt, counted", count, board, 0},
};

static void prepare(const uint32_t *chip, uint32_t taken)
{
    otp_note fresh = OTP_START;
    memcpy(rows, chip, sizeof rows);
    state = board_state;
    note = fresh;
    take(taken);
    answer.number = OTP_REFUSED_ARGUMENT;
}

static uint32_t stack_used(void (*call)(void))
{
    static _Alignas(16) uint8_t stack[STACK];
    uint32_t untouched = 0;
    memset(stack, 0xa5, sizeof stack);
    core_call_on(stack + STACK, call);
    while (untouched < STACK && stack[untouched] == 0xa5)
        untouched++;
    return STACK - untouched;
}

int main(void)
{
    core_count();
    make_board();
    make_full();
    make_carded(carded, 1);
    make_carded(lined, 2);
    printf("call                     instructions   bytes of stack\n");
    for (size_t i = 0; i < sizeof calls / sizeof calls[0]; i++) {
        prepare(calls[i].chip, calls[i].taken);
        uint32_t took = instructions(calls[i].call);
        if (answer.number != OTP_DONE) {
            printf("%s was refused with %u\n", calls[i].name, (unsigned)answer.number);
            return 1;
        }
        prepare(calls[i].chip, calls[i].taken);
        uint32_t stack = stack_used(calls[i].call);
        if (stack == STACK) {
            printf("%s takes all of the stack that it is measured on\n", calls[i].name);
            return 1;
        }
        printf("%-24s %12u %16u\n", calls[i].name, (unsigned)took, (unsigned)stack);
    }
    return 0;
}
