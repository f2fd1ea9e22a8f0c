/* What desk/calls.c leaves to chance: the arguments of a call, jobs, the chunks that they come in, what is wanted of rows, lists of rows, and
   cards. The same on every machine. */
#ifndef CHANCE_H
#define CHANCE_H

#include "otp.h"
#include "splash.h"

#include <string.h>

enum { FIRST_KEPT_ROW = 0xf40, FIRST_KEY_ROW = 0xf48, FIRST_VALID_ROW = 0xf79, FIRST_LOCK_ROW = 0xf80 };
enum { FIRST_CARD_ROW = 0x0c0, CARD_ROWS = 6 };
enum { HEAD = 7, ENTRY = 6, MOST_ENTRIES = 513, MOST_LENT = OTP_AREA_BYTES + 8, MOST_LISTED = FIRST_KEPT_ROW + 1 };

/* The job that was written last, with room for a byte too many. */
static uint8_t job[HEAD + ENTRY * MOST_ENTRIES + 1];

/* Chance, by xorshift. No expression asks for it twice, since C leaves open which comes first. */
static uint32_t chance(void)
{
    static uint32_t now = 2350;
    now ^= now << 13;
    now ^= now >> 17;
    now ^= now << 5;
    return now;
}

static uint32_t below(uint32_t bound) { return chance() % bound; }
static bool once_in(uint32_t times) { return below(times) == 0; }

/* One of a few numbers that lie at an edge. */
#define EDGE(...) edge((const uint32_t[]){__VA_ARGS__}, sizeof((const uint32_t[]){__VA_ARGS__}) / sizeof(uint32_t))
static uint32_t edge(const uint32_t *edges, uint32_t count) { return edges[below(count)]; }

/* One of the first rows of the first pages. They come back often enough to be written over and read after. */
static uint32_t often_used(void)
{
    uint32_t page = below(4);
    return OTP_PAGE_ROWS * page + below(6);
}

static uint32_t some_row(void)
{
    switch (below(8)) {
    case 0:
        return EDGE(0, FIRST_KEPT_ROW - 1, FIRST_KEPT_ROW, FIRST_KEY_ROW - 1, FIRST_KEY_ROW + 48, FIRST_LOCK_ROW - 1, FIRST_LOCK_ROW,
                    OTP_ROWS - 8, OTP_ROWS - 1, OTP_ROWS, 0xffffffff);
    case 1:
        return FIRST_KEY_ROW + below(48);
    case 2:
        return FIRST_LOCK_ROW + below(2 * OTP_PAGES);
    case 3:
        return below(OTP_ROWS);
    default:
        return often_used();
    }
}

/* A row's worth of bits, each set once in four times. */
static uint32_t some_bits(void)
{
    uint32_t bits = chance() & 0xffffff;
    return bits & chance();
}

/* Three callers, and a lock domain of each; 0x102 is the bootloader's number in its lowest byte. */
static uint32_t some_caller(void) { return once_in(20) ? EDGE(3, 0x100, 0x102, 0xffffffff) : below(3); }
static uint32_t some_domain(void) { return once_in(20) ? EDGE(3, 0x102, 0xffffffff) : below(3); }
static uint32_t some_page(void) { return once_in(20) ? EDGE(OTP_PAGES, 0x100, 0xffffffff) : below(once_in(2) ? 4 : OTP_PAGES); }
static uint32_t some_level(void) { return once_in(20) ? EDGE(3, 0xffffffff) : below(3); }
static uint32_t some_raw(void) { return once_in(20) ? EDGE(0x1000000, 0xffffffff) : some_bits(); }
static uint16_t some_tally(void) { return (uint16_t)(once_in(2) ? EDGE(0, 1520, 1535, 1536, 1537, 0xfff0, 0xffff) : chance()); }
static uint32_t some_value(void) { return once_in(20) ? EDGE(0x10000, 0xffffffff) : chance() & 0xffff; }
static uint64_t some_length(void) { return once_in(30) ? EDGE(0, OTP_ROWS - 1, OTP_ROWS + 1) : OTP_ROWS; }

/* Puts one entry into the job. */
static void put_entry(uint32_t at, uint32_t row, uint32_t kind, uint32_t value)
{
    uint8_t entry[ENTRY] = {(uint8_t)row, (uint8_t)(row >> 8), (uint8_t)kind, (uint8_t)value, (uint8_t)(value >> 8), (uint8_t)(value >> 16)};
    memcpy(job + HEAD + ENTRY * at, entry, ENTRY);
}

/* Writes a job of ascending rows, and gives its length. */
static uint32_t write_job(uint32_t count)
{
    uint32_t row = below(4), step = count > 64 ? 6 : 90;
    memcpy(job, "\x4f\x54\x4a\x01\x00", 5);
    job[5] = (uint8_t)count;
    job[6] = (uint8_t)(count >> 8);
    for (uint32_t i = 0; i < count; i++) {
        uint32_t kind = below(2);
        put_entry(i, row, kind, kind == 0 ? chance() & 0xffff : some_bits());
        row += 1 + below(step);
    }
    return HEAD + ENTRY * count;
}

/* Makes a job one of version 2, whose last entries may be raw ones of ascending lock rows. Now and then a row is past the last. */
static void lock_up(uint32_t count)
{
    uint32_t row = FIRST_LOCK_ROW + below(8);
    job[3] = 2;
    for (uint32_t i = count - below(1 + (count < 8 ? count : 8)); i < count; i++) {
        put_entry(i, row, 1, some_bits());
        row += 1 + below(20);
    }
}

/* Any bytes. */
static void fill(void *bytes, size_t size)
{
    for (size_t i = 0; i < size; i++)
        ((uint8_t *)bytes)[i] = (uint8_t)chance();
}

/* Flips one bit of some bytes. */
static void flip(uint8_t *bytes, uint32_t count)
{
    uint32_t at = below(count), place = below(8);
    bytes[at] ^= (uint8_t)(1 << place);
}

/* Spoils a job in one place, and gives its length. */
static uint32_t spoil(uint32_t length, uint32_t count)
{
    uint32_t at = count == 0 ? 0 : below(count), kind = below(2);
    uint32_t row = EDGE(0, FIRST_KEPT_ROW, FIRST_LOCK_ROW - 1, FIRST_LOCK_ROW, OTP_ROWS, 0xffff);
    switch (below(7)) {
    case 0:
        return below(length);
    case 1:
        return length + 1;
    case 2:
        flip(job, HEAD);
        return length;
    case 3:
        put_entry(at, 0, 2 + below(254), 0);
        return length;
    case 4:
        put_entry(at, 0, 0, 0x10000 + below(0xff0000));
        return length;
    default:
        put_entry(at, row, kind, 1);
        return length;
    }
}

static uint32_t some_job(void)
{
    uint32_t count = once_in(40) ? EDGE(512, 513) : below(12);
    uint32_t length = write_job(count);
    if (once_in(3))
        lock_up(count);
    return once_in(3) ? spoil(length, count) : length;
}

/* How much of an area is lent: too little, just enough, or more. */
static uint64_t some_lent(void) { return once_in(12) ? EDGE(0, HEAD, OTP_AREA_BYTES - 1) : EDGE(OTP_AREA_BYTES, OTP_AREA_BYTES + 1, MOST_LENT); }

/* The length of a chunk, of so many bytes that are left: all of them, or a few. */
static uint32_t some_piece(uint32_t left)
{
    uint32_t few = once_in(2) ? EDGE(0, 1, ENTRY - 1, ENTRY, HEAD) : below(40);
    return few > left || once_in(4) ? left : few;
}

/* Burns some rows of an image further, below a bound: each gets the lowest bit that it lacks. */
static void burn_further(uint32_t *image, uint32_t count, uint32_t bound)
{
    for (uint32_t i = 0; i < count; i++) {
        uint32_t row = once_in(2) ? often_used() : below(bound);
        image[row] |= image[row] + 1;
    }
}

/* Burns each of the first rows of an image further. */
static void burn_first(uint32_t *image, uint32_t count)
{
    for (uint32_t row = 0; row < count; row++)
        image[row] |= (image[row] + 1) & 0xffffff;
}

/* What is wanted of rows: the same, some of them burnt further, one from 0xf40 up, one with a bit lost, about 512 of them, or one too large. */
static void some_wanted(uint32_t *image)
{
    uint32_t row = below(OTP_ROWS), place = below(24), kept = FIRST_KEPT_ROW + below(OTP_ROWS - FIRST_KEPT_ROW);
    switch (below(8)) {
    case 0:
        break;
    case 1:
        image[kept] |= 1u << place;
        break;
    case 2:
        row = often_used();
        image[row] &= image[row] - 1;
        break;
    case 3:
        burn_first(image, 510 + below(5));
        break;
    case 4:
        image[row] |= 0x1000000;
        break;
    default:
        burn_further(image, below(8), FIRST_KEPT_ROW);
    }
}

/* How much of an output is lent: too little, enough for a few entries, or enough for all. */
static uint64_t some_room(void) { return once_in(4) ? below(60) : EDGE(OTP_JOB_BYTES - 1, OTP_JOB_BYTES, MOST_LENT); }

/* Spoils a list that is not empty in one place: by a row too high, one listed twice, or one that falls. Gives its length. */
static uint32_t spoil_list(uint32_t *list, uint32_t count)
{
    uint32_t at = below(count);
    switch (below(3)) {
    case 0:
        list[at] = EDGE(FIRST_KEPT_ROW, FIRST_LOCK_ROW, OTP_ROWS, 0x10000, 0xffffffff);
        return count;
    case 1:
        list[count] = list[count - 1];
        return count + 1;
    default:
        list[at] = 0;
        return count;
    }
}

/* Writes a list of rising rows, and gives its length: none, some of those that are used often and of others, or all that there may be. */
static uint32_t some_list(uint32_t *list)
{
    uint32_t count = 0, share = once_in(40) ? 0 : EDGE(1, 3, 12), others = EDGE(2, 20, 300, FIRST_KEPT_ROW);
    for (uint32_t row = 0; row < FIRST_KEPT_ROW; row++) {
        bool often = row < 4 * OTP_PAGE_ROWS && row % OTP_PAGE_ROWS < 6;
        if (share == 0 || once_in(often ? share : others))
            list[count++] = row;
    }
    return count > 0 && once_in(6) ? spoil_list(list, count) : count;
}

/* How much of a report is lent for so many rows: too little, just enough, or more. */
static uint64_t some_told(uint32_t count) { return once_in(8) ? below(count + 1) : count + (once_in(2) ? 0 : below(MOST_LISTED - count + 1)); }

/* A card's version and sizes: most of them good, at an edge or past it. 0x10001 and the like are good ones in their lower 16 bits. */
static uint32_t some_version(void) { return once_in(10) ? EDGE(0, 3, 0xffff, 0x10001, 0xffffffff) : 1 + below(2); }

static uint32_t some_size(uint32_t most)
{
    uint32_t past = EDGE(0, most + 1, 0x8001, 0xffff, 0x10000 + most, 0xffffffff);
    return once_in(10) ? past : once_in(4) ? EDGE(1, most) : 1 + below(most);
}

/* The bytes in a line of so many pixels: just as many, one too few, or any from there on, past the most too. */
static uint32_t some_line(uint32_t least)
{
    uint32_t size = some_size(OTP_CARD_LONGEST_LINE);
    return once_in(10) ? EDGE(least, least - 1) : size < least ? least : size;
}

/* How much of an output is lent for a card: too little, enough for version 1, just enough, or more. */
static uint64_t some_card_room(void)
{
    uint32_t less = EDGE(0, OTP_CARD_JOB_BYTES - ENTRY - 1, OTP_CARD_JOB_BYTES - ENTRY, OTP_CARD_JOB_BYTES - 1);
    return once_in(4) ? less : EDGE(OTP_CARD_JOB_BYTES, MOST_LENT);
}

/* Writes a job that burns a card by hand, good or bad, with all six rows whatever its version, and gives its length. */
static uint32_t card_job(void)
{
    uint32_t version = some_version(), width = some_size(OTP_CARD_WIDEST), height = some_size(OTP_CARD_HIGHEST), line = some_line(width);
    uint32_t values[CARD_ROWS] = {0x5053, 0x004c, version, width, height, line};
    if (once_in(10))
        values[below(2)] ^= 1;
    memcpy(job, "\x4f\x54\x4a\x01\x00\x06\x00", HEAD);
    for (uint32_t i = 0; i < CARD_ROWS; i++)
        put_entry(i, FIRST_CARD_ROW + i, 0, values[i] & 0xffff);
    return HEAD + ENTRY * CARD_ROWS;
}

/* Any note, which may be one that no chunk gives. */
static otp_note some_note(void)
{
    otp_note any;
    any.counted = once_in(2) ? below(80) : EDGE(OTP_AREA_BYTES - 1, OTP_AREA_BYTES, OTP_AREA_BYTES + 1, OTP_AREA_BYTES + 2, 0xffffffff);
    any.least = once_in(2) ? below(OTP_ROWS) : EDGE(0, FIRST_KEPT_ROW, FIRST_LOCK_ROW, FIRST_LOCK_ROW + 1, OTP_ROWS, 0xffffffff);
    for (uint32_t i = 0; i < sizeof any.part; i++)
        any.part[i] = (uint8_t)(once_in(2) ? below(2) : chance());
    return any;
}

#endif
