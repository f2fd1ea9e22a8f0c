/*
 * desk.c: a first program over libotp.a, for the author of a desk's firmware.
 *
 * On an image of a blank chip it keeps a screen's width in a row, shows how much of the page is burnt, reads the width with a worn bit and
 * with a worn flag, and locks its page. On a second blank chip it burns the bootloader's lock, so that a USB loader reads the width and
 * cannot write it. On a third it rehearses a job up to a power cut, and then runs it. On a fourth the same job comes over a serial lead, a few
 * bytes at a time. On a fifth a job is made of the rows as they are and as they are to be, and is read and run. On a sixth old rows are
 * repaired. It prints what happens, and exits 1 where that is not what document 01 and its requests say.
 *
 *     tools/staticlib otp
 *     cc -std=c11 -Iinclude examples/desk.c target/staticlib/libotp.a -o target/desk
 */
#include "otp.h"

#include <stdio.h>
#include <string.h>

enum { ROW = 0x0c0, PAGE = ROW / OTP_PAGE_ROWS, WIDTH = 320 };

/* The image of a chip. A desk would fill it from the chip itself. */
static uint32_t rows[OTP_ROWS];

/* How many things were not as they must be. */
static int wrong;

static void expect(const char *what, uint32_t is, uint32_t must)
{
    if (is != must) {
        printf("WRONG: %s is 0x%06x and must be 0x%06x\n", what, (unsigned)is, (unsigned)must);
        wrong++;
    }
}

/* A blank chip, reset. A state of all zeros is the one to start from. */
static otp_state blank_chip(void)
{
    memset(rows, 0, sizeof rows);
    otp_state start = OTP_START;
    otp_outcome out = otp_reset(rows, OTP_ROWS, start);
    printf("reset of a blank chip: number %u\n", (unsigned)out.answer.number);
    expect("the number of the reset", out.answer.number, OTP_DONE);
    return out.state;
}

/* A write answers with the pulses that it spent, and with the state to go on with. */
static otp_state write_width(otp_state state)
{
    otp_outcome out = otp_write_ecc(rows, OTP_ROWS, state, OTP_SECURE, ROW, WIDTH);
    printf("width %d written to row 0x%03x: number %u, %u pulses, the row is 0x%06x\n", WIDTH, ROW,
           (unsigned)out.answer.number, (unsigned)out.answer.pulses, (unsigned)rows[ROW]);
    expect("the number of the write", out.answer.number, OTP_DONE);
    return out.state;
}

/* What a screen shows of a page. The state that the last call gave back has it, and no row is counted. */
static void show_burnt(otp_state state, uint32_t page, uint32_t bits)
{
    printf("page %u: %u of %d bits burnt\n", (unsigned)page, (unsigned)state.tallies[page], OTP_PAGE_BITS);
    expect("the bits burnt", state.tallies[page], bits);
}

/* A row that is repaired or flag worn still has its value, and it is time to look at the board. One that is both has two wrong bits, and its
   value is not certain. Where a bit had to be repaired, the answer says which. */
static void print_condition(otp_answer got)
{
    printf("%s, ", got.polarity == OTP_INVERTED ? "inverted" : "plain");
    switch (got.condition) {
    case OTP_CLEAN:
        printf("clean\n");
        break;
    case OTP_REPAIRED:
        printf("repaired bit %u\n", (unsigned)got.bit);
        break;
    case OTP_FLAG_WORN:
        printf("flag worn\n");
        break;
    default:
        printf("flag worn, repaired bit %u\n", (unsigned)got.bit);
    }
}

/* The desk reads as Non-secure. */
static void read_width(otp_state state, uint32_t condition, uint32_t bit)
{
    otp_answer got = otp_read_ecc(rows, OTP_ROWS, state, OTP_NONSECURE, ROW);
    printf("width read from 0x%06x: number %u, value %u, ", (unsigned)rows[ROW], (unsigned)got.number, (unsigned)got.value);
    print_condition(got);
    expect("the number of the read", got.number, OTP_DONE);
    expect("the width", got.value, WIDTH);
    expect("the condition", got.condition, condition);
    expect("the repaired bit", got.bit, bit);
    expect("the polarity", got.polarity, OTP_PLAIN);
    expect("whether bits 23 and 22 disagree", got.disagree, condition >= OTP_FLAG_WORN);
}

/* Locks the page against writing until the next reset. */
static otp_state lock_page(otp_state state)
{
    otp_outcome out = otp_advance(state, OTP_SECURE, OTP_SECURE, PAGE, OTP_READ_ONLY);
    otp_answer level = otp_show(out.state, OTP_NONSECURE, OTP_SECURE, PAGE);
    printf("page %d locked: number %u, it shows level %u\n", PAGE, (unsigned)out.answer.number, (unsigned)level.value);
    expect("the number of the advance", out.answer.number, OTP_DONE);
    expect("the level of the page", level.value, OTP_READ_ONLY);
    return out.state;
}

/* A refusal has a number of its own, and changes no row. */
static void refused_write(otp_state state)
{
    uint32_t before = rows[ROW];
    otp_outcome out = otp_write_ecc(rows, OTP_ROWS, state, OTP_SECURE, ROW, WIDTH);
    printf("width written again: refused with number %u, the row is 0x%06x still\n", (unsigned)out.answer.number, (unsigned)rows[ROW]);
    expect("the number of the refused write", out.answer.number, OTP_REFUSED_LOCK);
    expect("the row after the refusal", rows[ROW], before);
}

/* One width, written, read, read with a worn bit, read with a worn flag too, and locked. */
static void keep_a_width(void)
{
    otp_state state = write_width(blank_chip());
    show_burnt(state, PAGE, 4);
    read_width(state, OTP_CLEAN, 0);
    rows[ROW] &= ~(UINT32_C(1) << 8);
    printf("bit 8 wears away\n");
    read_width(state, OTP_REPAIRED, 8);
    rows[ROW] |= UINT32_C(1) << 22;
    printf("bit 22 comes of itself\n");
    read_width(state, OTP_FLAG_WORN_REPAIRED, 8);
    refused_write(lock_page(state));
}

/* The high lock row of the page. Bits 5:4 of each of its three bytes are the bootloader's level, which no call advances: it is burnt. */
enum { LOCK_ROW = 0xf81 + 2 * PAGE, LOCK_BOOTLOADER = OTP_READ_ONLY * 0x101010 };

/* The page that the lock row itself is in: its bits count there, and not for the page that it locks. */
enum { LOCK_ROWS_PAGE = LOCK_ROW / OTP_PAGE_ROWS };

/* The bootloader reads and writes by its own level and by Secure's. */
static void ask_as_bootloader(const char *when, otp_state state, uint32_t read, uint32_t write)
{
    otp_answer level = otp_show(state, OTP_BOOTLOADER, OTP_BOOTLOADER, PAGE);
    otp_answer got = otp_read_ecc(rows, OTP_ROWS, state, OTP_BOOTLOADER, ROW);
    otp_outcome out = otp_write_ecc(rows, OTP_ROWS, state, OTP_BOOTLOADER, ROW, WIDTH);
    printf("%s: the bootloader has level %u, its read gives number %u, its write %u\n", when, (unsigned)level.value,
           (unsigned)got.number, (unsigned)out.answer.number);
    expect("the bootloader's level", level.value, OTP_READ_ONLY);
    expect("the number of the bootloader's read", got.number, read);
    expect("the number of the bootloader's write", out.answer.number, write);
}

/* A burnt lock holds from the next reset on. It stands against the bootloader alone, but what is locked for Secure is locked for it too. */
static void lock_for_the_bootloader(void)
{
    otp_state state = write_width(blank_chip());
    otp_outcome burnt = otp_write_raw(rows, OTP_ROWS, state, OTP_SECURE, LOCK_ROW, LOCK_BOOTLOADER);
    expect("the number of the lock's write", burnt.answer.number, OTP_DONE);
    show_burnt(burnt.state, PAGE, 4);
    show_burnt(burnt.state, LOCK_ROWS_PAGE, 3);
    otp_outcome again = otp_reset(rows, OTP_ROWS, burnt.state);
    ask_as_bootloader("its lock burnt, and reset", again.state, OTP_DONE, OTP_REFUSED_LOCK);
    read_width(again.state, OTP_CLEAN, 0);
    otp_outcome closed = otp_advance(again.state, OTP_SECURE, OTP_SECURE, PAGE, OTP_NO_ACCESS);
    expect("the number of the advance", closed.answer.number, OTP_DONE);
    ask_as_bootloader("Secure's lock advanced to 2", closed.state, OTP_REFUSED_LOCK, OTP_REFUSED_LOCK);
}

/* A job of one entry: row 0x0c0, ECC, value 1. */
static const uint8_t job[] = {0x4f, 0x54, 0x4a, 0x01, 0x00, 0x01, 0x00, 0xc0, 0x00, 0x00, 0x01, 0x00, 0x00};

/* What a job or a rehearsal came to, and what it must have come to. */
static void job_came_to(const char *what, otp_answer is, uint32_t place, uint32_t pulses, uint32_t row)
{
    printf("%s: number %u, place %u, %u pulses, the row is 0x%06x\n", what, (unsigned)is.number, (unsigned)is.place,
           (unsigned)is.pulses, (unsigned)rows[ROW]);
    expect("the number of the job", is.number, OTP_DONE);
    expect("the place", is.place, place);
    expect("the pulses", is.pulses, pulses);
    expect("the row", rows[ROW], row);
}

/* The power goes after two pulses. After a reset the same job finishes what was begun. */
static void run_a_job(void)
{
    otp_state state = blank_chip();
    otp_outcome cut = otp_rehearse(rows, OTP_ROWS, state, job, sizeof job, 2);
    job_came_to("job rehearsed to 2 pulses", cut.answer, 0, 2, 0x010001);
    show_burnt(cut.state, PAGE, 2);
    otp_outcome again = otp_reset(rows, OTP_ROWS, cut.state);
    otp_outcome whole = otp_run_job(rows, OTP_ROWS, again.state, job, sizeof job);
    job_came_to("reset, and the job run", whole.answer, 1, 2, 0x230001);
    show_burnt(whole.state, PAGE, 4);
}

/* Where the job is kept while it comes. What it held before does not matter. */
static uint8_t area[OTP_AREA_BYTES];

/* One chunk. Its early word is 0, or the number that the end will be refused with: then the sender may as well stop. */
static otp_note take(otp_note note, const uint8_t *chunk, uint64_t bytes, uint32_t word)
{
    otp_taken taken = otp_take_chunk(area, sizeof area, note, chunk, bytes);
    printf("%u bytes taken: number %u, early word %u\n", (unsigned)taken.note.counted, (unsigned)taken.answer.number,
           (unsigned)taken.answer.value);
    expect("the number of the chunk", taken.answer.number, OTP_DONE);
    expect("the early word", taken.answer.value, word);
    return taken.note;
}

/* The job comes in two chunks, and nothing is burnt before its end is announced. Sent again with a kind that there is not, its end is refused. */
static void take_a_job(void)
{
    otp_state state = blank_chip();
    otp_note fresh = OTP_START;
    otp_note note = take(take(fresh, job, 9, 0), job + 9, sizeof job - 9, 0);
    expect("the row before the end", rows[ROW], 0);
    otp_outcome end = otp_end_job(rows, OTP_ROWS, state, area, sizeof area, note);
    job_came_to("the end announced", end.answer, 1, 4, 0x230001);
    uint8_t spoilt[sizeof job];
    memcpy(spoilt, job, sizeof job);
    spoilt[9] = 7;
    note = take(fresh, spoilt, sizeof spoilt, OTP_REFUSED_JOB);
    end = otp_end_job(rows, OTP_ROWS, end.state, area, sizeof area, note);
    printf("its end announced: refused with number %u\n", (unsigned)end.answer.number);
    expect("the number of the spoilt job", end.answer.number, OTP_REFUSED_JOB);
}

/* The chip as it is to be, and where the job is made that burns it so. */
static uint32_t wanted[OTP_ROWS];
static uint8_t made[OTP_JOB_BYTES];

/* The job that burns the rows into the wanted ones, with each of its entries. */
static uint64_t make_the_job(uint32_t entries)
{
    otp_answer answer = otp_make_job(rows, OTP_ROWS, wanted, OTP_ROWS, made, sizeof made);
    printf("job made: number %u, %u bytes\n", (unsigned)answer.number, (unsigned)answer.value);
    expect("the number of the making", answer.number, OTP_DONE);
    expect("the bytes of the job", answer.value, 7 + 6 * entries);
    otp_entry entry = otp_next_entry(made, answer.value, 7);
    for (; entry.number == OTP_DONE && !entry.end; entry = otp_next_entry(made, answer.value, entry.at))
        printf("  row 0x%03x, kind %u, 0x%06x\n", (unsigned)entry.row, (unsigned)entry.kind, (unsigned)entry.value);
    expect("the number at the end", entry.number, OTP_DONE);
    return answer.value;
}

/* A faded bit of the width is burnt again: the job is made of the rows as they are and as they are to be. A bit that the wanted rows lack is
   burnt for good, so then no job is made. */
static void make_a_job(void)
{
    otp_state state = blank_chip();
    rows[ROW] = 0x060100;
    memcpy(wanted, rows, sizeof wanted);
    wanted[ROW] = 0x060140;
    otp_outcome out = otp_run_job(rows, OTP_ROWS, state, made, make_the_job(1));
    job_came_to("the job made and run", out.answer, 1, 1, wanted[ROW]);
    wanted[ROW] = 0x060100;
    otp_answer lost = otp_make_job(rows, OTP_ROWS, wanted, OTP_ROWS, made, sizeof made);
    printf("the other way round: refused with number %u\n", (unsigned)lost.number);
    expect("the number of a lost bit", lost.number, OTP_REFUSED_LOST);
}

/* The rows to look at, and what is found of each. */
static const uint32_t listed[] = {0x0c0, 0x0c1, 0x0c2, 0x0c3, 0x100};
static uint32_t report[5];

/* What is found of a row, in words, and what it must be. */
static void found(uint32_t i, uint32_t kind, uint32_t bit)
{
    static const char *const kinds[] = {"clean", "mended", "worn", "damaged", "not permitted"};
    printf("  row 0x%03x: %s", (unsigned)listed[i], kinds[report[i] % 256]);
    if (report[i] % 256 == OTP_ROW_MENDED)
        printf(", bit %u burnt", (unsigned)(report[i] / 256));
    printf("\n");
    expect("the kind of the row", report[i] % 256, kind);
    expect("the bit of the row", report[i] / 256, bit);
}

/* Old rows: the width with a faded bit, a blank row, one with a 1 too many, one that does not decode, and one on a page that is locked. The
   faded bit is burnt again, and what burning cannot mend is left as it was. */
static void repair_old_rows(void)
{
    otp_state state = blank_chip();
    rows[0x0c0] = 0x060100;
    rows[0x0c2] = 0x230011;
    rows[0x0c3] = 0x000003;
    otp_outcome again = otp_reset(rows, OTP_ROWS, state);
    otp_outcome locked = otp_advance(again.state, OTP_SECURE, OTP_SECURE, 4, OTP_READ_ONLY);
    otp_outcome out = otp_repair(rows, OTP_ROWS, locked.state, listed, 5, report, 5);
    printf("repaired: number %u, %u pulses, row 0x0c0 is 0x%06x\n", (unsigned)out.answer.number, (unsigned)out.answer.pulses,
           (unsigned)rows[0x0c0]);
    expect("the number of the repair", out.answer.number, OTP_DONE);
    expect("the pulses of the repair", out.answer.pulses, 1);
    expect("the mended row", rows[0x0c0], 0x060140);
    found(0, OTP_ROW_MENDED, 6);
    found(1, OTP_ROW_CLEAN, 0);
    found(2, OTP_ROW_WORN, 0);
    found(3, OTP_ROW_DAMAGED, 0);
    found(4, OTP_ROW_NOT_PERMITTED, 0);
    show_burnt(out.state, PAGE, 11);
}

int main(void)
{
    keep_a_width();
    lock_for_the_bootloader();
    run_a_job();
    take_a_job();
    make_a_job();
    repair_old_rows();
    return wrong == 0 ? 0 : 1;
}
