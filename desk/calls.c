/* Calls made by chance on libotp.a and libsplash.a, so that two builds of them can be compared: one source, one seed, the same lines on every
   machine.

   Sequences of calls on one chip, with the state carried on: rows, keys and locks are burnt by the calls themselves and wear, and now and
   then an entry, a state, a note or an argument is put in that no chip would have. Some jobs come in chunks, cut anywhere, and some are made
   of the rows and of wanted ones, and read; and rows that lost a bit are repaired. Cards are written, burnt, worn and read. A checksum goes on
   over every answer, state and row, over every note and area of a chunk or an end, over every output of a making and of a card that is written,
   over every entry and every card, and over every list and report of a repair. It is printed every EVERY calls, so two outputs part within as
   many calls of where the builds do. At the end comes the tally of tally.h. Compile with -DEVERY=1 to see the very call. */
#include "chance.h"
#include "kept.h"
#include "new_chip.h"
#include "otp.h"
#include "splash.h"

#include <string.h>

#ifndef CALLS
#define CALLS 140000
#endif

/* Enters the key that is burnt, or one like it. */
static void enter_some_key(void)
{
    uint8_t given[OTP_KEY_BYTES + 1] = {0};
    uint32_t caller = some_caller(), bytes = once_in(8) ? EDGE(0, 15, 17) : OTP_KEY_BYTES;
    memcpy(given, key, OTP_KEY_BYTES);
    if (once_in(4))
        flip(given, OTP_KEY_BYTES);
    keep(ENTER_KEY, caller, otp_enter_key(state, caller, given, bytes));
}

static void some_read(void)
{
    uint32_t caller = some_caller(), row = some_row();
    uint64_t length = some_length();
    switch (below(3)) {
    case 0:
        keep_answer(READ_RAW, caller, otp_read_raw(rows, length, state, caller, row));
        break;
    case 1:
        if (row < OTP_ROWS && once_in(4))
            wear(row);
        keep_answer(READ_ECC, caller, otp_read_ecc(rows, length, state, caller, row));
        break;
    default:
        keep_answer(READ_VOTE, caller, otp_read_vote(rows, length, state, caller, row, once_in(8) ? EDGE(0, 2, 4, 9, 0xffffffff) : EDGE(3, 8)));
    }
}

static void some_write(void)
{
    uint32_t caller = some_caller(), row = some_row();
    uint64_t length = some_length();
    if (once_in(3))
        keep(WRITE_RAW, caller, otp_write_raw(rows, length, state, caller, row, some_raw()));
    else
        keep(WRITE_ECC, caller, otp_write_ecc(rows, length, state, caller, row, some_value()));
}

static void some_run(void)
{
    uint32_t bytes = some_job();
    uint64_t length = some_length();
    if (once_in(2))
        keep(RUN_JOB, NO_CALLER, otp_run_job(rows, length, state, job, bytes));
    else
        keep(REHEARSE, NO_CALLER, otp_rehearse(rows, length, state, job, bytes, once_in(4) ? EDGE(0, 1, 0xffffffff) : below(200)));
}

/* A whole job, cut anywhere, and its end. */
static void send_job(void)
{
    otp_note fresh = OTP_START;
    uint32_t bytes = some_job(), at = 0;
    uint64_t lent = some_lent();
    note = fresh;
    while (at < bytes) {
        uint32_t piece = some_piece(bytes - at);
        keep_taken(otp_take_chunk(area, lent, note, job + at, piece));
        at += piece;
    }
    keep(END_JOB, NO_CALLER, otp_end_job(rows, some_length(), state, area, lent, note));
}

/* Some bytes of a job onto any note, and perhaps onto any area, and perhaps its end. */
static void any_chunk(void)
{
    uint64_t lent = some_lent();
    note = some_note();
    if (once_in(8))
        fill(area, sizeof area);
    uint32_t at = note.counted < sizeof job ? note.counted : 0;
    keep_taken(otp_take_chunk(area, lent, note, job + at, some_piece(sizeof job - at)));
    if (once_in(4))
        keep(END_JOB, NO_CALLER, otp_end_job(rows, some_length(), state, area, lent, note));
}

/* Reads some bytes from a place on, at most so many entries. */
static void read_entries(const uint8_t *bytes, uint64_t length, uint64_t at, uint32_t most)
{
    do {
        keep_entry(otp_next_entry(bytes, length, at));
        at = entry.at;
    } while (--most > 0 && entry.number == OTP_DONE && !entry.end);
}

/* Makes the job of the rows and of wanted ones, and where there is one reads it, and perhaps runs it. */
static void make_job(void)
{
    uint64_t length = some_length(), other = some_length(), room = some_room();
    memcpy(wanted, rows, sizeof wanted);
    some_wanted(wanted);
    if (once_in(2))
        fill(out, sizeof out);
    keep_answer(MAKE_JOB, NO_CALLER, otp_make_job(rows, length, wanted, other, out, room));
    if (answer.number != OTP_DONE)
        return;
    uint32_t bytes = answer.value;
    read_entries(out, bytes, HEAD, 4);
    if (once_in(2))
        keep(RUN_JOB, NO_CALLER, otp_run_job(rows, OTP_ROWS, state, out, bytes));
}

/* Reads some job, good or bad, from its first entry or from any place. */
static void read_job(void)
{
    uint32_t bytes = some_job();
    uint64_t at = once_in(3) ? below(bytes + 8) : once_in(20) ? UINT64_MAX - below(8) : HEAD;
    read_entries(job, bytes, at, 3);
}

/* Burns a value into a row, perhaps has it in the other polarity, and lets it lose its lowest 1. */
static void lose_one(uint32_t row)
{
    uint32_t value = some_value();
    keep(WRITE_ECC, OTP_SECURE, otp_write_ecc(rows, OTP_ROWS, state, OTP_SECURE, row, value));
    if (once_in(3))
        rows[row] ^= 0xffffff;
    rows[row] &= rows[row] - 1;
}

/* Lets some rows lose a 1, and repairs some rows, perhaps twice. */
static void repair(void)
{
    uint64_t length = some_length();
    for (uint32_t lost = below(4); lost > 0; lost--)
        lose_one(often_used());
    uint32_t count = some_list(list);
    uint64_t told = some_told(count);
    if (once_in(4))
        fill(report, sizeof report);
    keep_repair(otp_repair(rows, length, state, list, count, report, told), count);
    if (once_in(4))
        keep_repair(otp_repair(rows, length, state, list, count, report, told), count);
}

/* Reads the card, of which a row is perhaps worn, turned to the other polarity, burnt plain and inverted, or too large. */
static void read_card(void)
{
    uint32_t row = FIRST_CARD_ROW + below(CARD_ROWS), as_it_was = rows[row];
    switch (below(8)) {
    case 0:
    case 1:
        wear(row);
        break;
    case 2:
        rows[row] ^= 0xffffff;
        break;
    case 3:
        rows[row] = 0xffffff;
        break;
    case 4:
        rows[row] |= 0x1000000;
        break;
    default:
        break;
    }
    keep_card(otp_read_card(rows, some_length(), state));
    rows[row] = as_it_was;
}

/* Runs the job of a card, perhaps over rows that are blank, and reads it. */
static void burn_card(const uint8_t *bytes, uint32_t length)
{
    if (!once_in(4))
        memset(rows + FIRST_CARD_ROW, 0, CARD_ROWS * sizeof rows[0]);
    keep(RUN_JOB, NO_CALLER, otp_run_job(rows, OTP_ROWS, state, bytes, length));
    read_card();
}

/* Writes a card, and where there is a job burns it. */
static void write_card(void)
{
    uint32_t version = some_version(), width = some_size(OTP_CARD_WIDEST);
    uint32_t height = some_size(OTP_CARD_HIGHEST), line = some_line(width);
    uint64_t room = some_card_room();
    if (once_in(2))
        fill(out, sizeof out);
    keep_answer(WRITE_CARD, NO_CALLER, otp_write_card(out, room, version, width, height, line));
    if (answer.number == OTP_DONE)
        burn_card(out, answer.value);
}

/* A card that is written, one that is burnt by hand, or whatever the rows hold. */
static void some_card(void)
{
    uint32_t bytes;
    switch (below(3)) {
    case 0:
        write_card();
        break;
    case 1:
        bytes = card_job();
        burn_card(job, bytes);
        break;
    default:
        read_card();
    }
}

static void some_lock(void)
{
    uint32_t caller = some_caller(), domain = some_domain(), page = some_page();
    if (once_in(2))
        keep_answer(SHOW, caller, otp_show(state, caller, domain, page));
    else
        keep(ADVANCE, caller, otp_advance(state, caller, domain, page, some_level()));
}

static void some_call(void)
{
    switch (below(22)) {
    case 0:
        keep(RESET, NO_CALLER, otp_reset(rows, some_length(), state));
        break;
    case 1:
        enter_some_key();
        break;
    case 2:
    case 3:
        some_lock();
        break;
    case 4:
    case 5:
        some_run();
        break;
    case 6:
        send_job();
        break;
    case 7:
        any_chunk();
        break;
    case 8:
        make_job();
        break;
    case 9:
        read_job();
        break;
    case 10:
        repair();
        break;
    case 11:
        some_card();
        break;
    case 12:
    case 13:
    case 14:
    case 15:
        some_write();
        break;
    default:
        some_read();
    }
}

int main(void)
{
    while (made < CALLS) {
        new_chip();
        for (uint32_t more = 20 + below(40); more > 0; more--)
            some_call();
    }
    return all_told() ? 0 : 1;
}
