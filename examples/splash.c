/*
 * splash.c: a frame buffer by the splash card, for the author of a desk's firmware.
 *
 * For each image that is named it reads the card, and clears a frame buffer of exactly line x height bytes. All memory on both sides of the
 * buffer must stay as it was. Then it writes a card, runs its job on a blank chip, and reads the card back. It prints what happens, a line for
 * each image, and exits 1 where that is not as it must be.
 *
 *     tools/staticlib otp splash
 *     cc -std=c11 -Iinclude examples/splash.c target/staticlib/libsplash.a target/staticlib/libotp.a -o target/splash
 *     target/splash examples/scrap.img examples/story.img
 */
#include "splash.h"

#include <stdio.h>
#include <string.h>

/* Room for the largest frame, with a guard on both sides. Whatever card is read, no frame is larger. */
enum { GUARD = 4096, LARGEST = OTP_CARD_LONGEST_LINE * OTP_CARD_HIGHEST, UNTOUCHED = 0xa5 };
static uint8_t memory[GUARD + LARGEST + GUARD];

/* The image of a chip. A desk would fill it from the chip itself. */
static uint32_t rows[OTP_ROWS];

/* How many things were not as they must be. */
static int wrong;

static void expect(const char *what, uint32_t is, uint32_t must)
{
    if (is != must) {
        printf("WRONG: %s is %u and must be %u\n", what, (unsigned)is, (unsigned)must);
        wrong++;
    }
}

/* The state that a chip has after its reset. */
static otp_state reset(void)
{
    otp_state start = OTP_START;
    otp_outcome out = otp_reset(rows, OTP_ROWS, start);
    expect("the number of the reset", out.answer.number, OTP_DONE);
    return out.state;
}

/* What the number of a card that is not there means. Each is one that a desk can meet; the others are a fault of its own. */
static const char *meaning(uint32_t number)
{
    switch (number) {
    case OTP_REFUSED_LOCK:
        return "Non-secure may not read the rows";
    case OTP_REFUSED_CODE:
        return "a row does not decode";
    case OTP_REFUSED_MARK:
        return "the mark is not there";
    case OTP_REFUSED_VERSION:
        return "the version is not known";
    case OTP_REFUSED_SIZE:
        return "a size is out of its range";
    default:
        return "the rows are not those of a chip";
    }
}

static void print_card(otp_card card)
{
    if (card.number == OTP_DONE)
        printf("version %u, %u x %u, %u bytes in a line; ", (unsigned)card.version, (unsigned)card.width, (unsigned)card.height,
               (unsigned)card.line);
    else
        printf("no card, %u: %s; ", (unsigned)card.number, meaning(card.number));
}

/* Clears a frame byte by byte, as a decoder would fill it. It takes the card's sizes as they are: in their ranges, or all 0. */
static void clear(uint8_t *frame, otp_card card)
{
    for (uint32_t y = 0; y < card.height; y++)
        for (uint32_t x = 0; x < card.line; x++)
            frame[y * card.line + x] = 0;
}

/* How many of some bytes have a value. */
static uint32_t count(const uint8_t *bytes, uint32_t size, uint8_t value)
{
    uint32_t found = 0;
    for (uint32_t i = 0; i < size; i++)
        found += bytes[i] == value;
    return found;
}

/* Clears the frame of a card, all of it and nothing else. Where there is no card its sizes are 0, and nothing is cleared. */
static void clear_frame(otp_card card)
{
    uint32_t size = card.line * card.height;
    memset(memory, UNTOUCHED, sizeof memory);
    clear(memory + GUARD, card);
    printf("%u bytes cleared\n", (unsigned)size);
    expect("the bytes cleared in the frame", count(memory + GUARD, size, 0), size);
    expect("the bytes left in all", count(memory, sizeof memory, UNTOUCHED), (uint32_t)sizeof memory - size);
}

/* Fills the rows from a file: 4,096 numbers of 32 bits, low byte first. */
static bool load(const char *name)
{
    uint8_t word[4];
    uint32_t row = 0;
    FILE *file = fopen(name, "rb");
    if (file == NULL)
        return false;
    while (row < OTP_ROWS && fread(word, 1, sizeof word, file) == sizeof word)
        rows[row++] = word[0] | (uint32_t)word[1] << 8 | (uint32_t)word[2] << 16 | (uint32_t)word[3] << 24;
    fclose(file);
    return row == OTP_ROWS;
}

/* The card of an image, and its frame. */
static void show(const char *name)
{
    printf("%s: ", name);
    if (!load(name)) {
        printf("WRONG: no image\n");
        wrong++;
        return;
    }
    otp_card card = otp_read_card(rows, OTP_ROWS, reset());
    print_card(card);
    clear_frame(card);
}

/* Writes a card, runs its job on a blank chip as any job is run, and reads it back. The desk writes as Secure, and reads as Non-secure. */
static void keep_a_card(void)
{
    uint8_t job[OTP_CARD_JOB_BYTES];
    otp_answer made = otp_write_card(job, sizeof job, 2, 300, 200, 512);
    printf("card written: number %u, a job of %u bytes\n", (unsigned)made.number, (unsigned)made.value);
    expect("the number of the writing", made.number, OTP_DONE);
    memset(rows, 0, sizeof rows);
    otp_outcome out = otp_run_job(rows, OTP_ROWS, reset(), job, made.value);
    printf("its job run: number %u, %u entries, %u pulses\n", (unsigned)out.answer.number, (unsigned)out.answer.place,
           (unsigned)out.answer.pulses);
    otp_card card = otp_read_card(rows, OTP_ROWS, out.state);
    printf("read back: ");
    print_card(card);
    clear_frame(card);
    expect("the version", card.version, 2);
    expect("the width", card.width, 300);
    expect("the height", card.height, 200);
    expect("the line", card.line, 512);
}

/* A width of minus one cannot be written, and the area is left as it was. */
static void refuse_a_card(void)
{
    uint8_t job[OTP_CARD_JOB_BYTES];
    memset(job, UNTOUCHED, sizeof job);
    otp_answer none = otp_write_card(job, sizeof job, 1, (uint32_t)-1, 240, 0);
    printf("width of minus one: refused with number %u\n", (unsigned)none.number);
    expect("the number of the refusal", none.number, OTP_REFUSED_SIZE);
    expect("the bytes left in the area", count(job, sizeof job, UNTOUCHED), (uint32_t)sizeof job);
}

int main(int argc, char **argv)
{
    for (int i = 1; i < argc; i++)
        show(argv[i]);
    keep_a_card();
    refuse_a_card();
    return wrong == 0 ? 0 : 1;
}
