/* What desk/calls.c carries on from call to call, and the checksum over all that the calls leave. */
#ifndef KEPT_H
#define KEPT_H

#include "chance.h"
#include "otp.h"
#include "splash.h"
#include "tally.h"

#include <stdio.h>

#ifndef EVERY
#define EVERY 1000
#endif

/* Entries past the rows and past a report, and bytes past the area, which no call may change. */
enum { PAST = 8 };

/* The chip: its rows and a few entries past them, its state, and the last answer. */
static uint32_t rows[OTP_ROWS + PAST];
static otp_state state;
static otp_answer answer;

/* What has come of a job that comes in chunks. */
static uint8_t area[MOST_LENT + PAST];
static otp_note note;

/* The chip as it is to be, the output of a making, and what was handed over last. */
static uint32_t wanted[OTP_ROWS + PAST];
static uint8_t out[MOST_LENT + PAST];
static otp_entry entry;

/* The card that was read last. */
static otp_card card;

/* The rows that a repair pass looks at, and what it tells of them. */
static uint32_t list[MOST_LISTED], report[MOST_LISTED + PAST];

static uint32_t made, checksum = 2166136261u;

/* The checksum, taken on by a number or by the bytes of a struct, which have no gaps. */
static void sum(uint32_t number)
{
    checksum = (checksum ^ number) * 16777619u;
    checksum ^= checksum >> 15;
}

static void sum_bytes(const void *bytes, size_t size)
{
    for (size_t i = 0; i < size; i++)
        sum(((const uint8_t *)bytes)[i]);
}

static void sum_entries(const uint32_t *entries, uint32_t count)
{
    for (uint32_t i = 0; i < count; i++)
        sum(entries[i]);
}

/* Field by field: a struct with a gap behind its last. */
static void sum_entry(void)
{
    sum_bytes(&entry.at, sizeof entry.at);
    sum(entry.number);
    sum(entry.end);
    sum(entry.row);
    sum(entry.kind);
    sum(entry.value);
}

/* Takes on all that a call left. The area and the note are no other call's, nor are the wanted rows, nor the output of a making or of a card,
   nor an entry, nor the list and the report, nor a card. */
static void took(uint32_t kind, uint32_t caller)
{
    sum(kind);
    sum_bytes(&answer, sizeof answer);
    sum_bytes(&state, sizeof state);
    sum_entries(rows, OTP_ROWS + PAST);
    if (kind == TAKE_CHUNK || kind == END_JOB) {
        sum_bytes(&note, sizeof note);
        sum_bytes(area, sizeof area);
    }
    if (kind == MAKE_JOB)
        sum_entries(wanted, OTP_ROWS + PAST);
    if (kind == MAKE_JOB || kind == WRITE_CARD)
        sum_bytes(out, sizeof out);
    if (kind == NEXT_ENTRY)
        sum_entry();
    if (kind == REPAIR) {
        sum_entries(list, MOST_LISTED);
        sum_entries(report, MOST_LISTED + PAST);
    }
    if (kind == READ_CARD)
        sum_bytes(&card, sizeof card);
    tally(kind, caller, &answer);
    if (++made % EVERY == 0)
        printf("%6u calls, checksum %08x\n", (unsigned)made, (unsigned)checksum);
}

static void keep(uint32_t kind, uint32_t caller, otp_outcome outcome)
{
    tally_pages(kind, &outcome.answer, state.tallies, outcome.state.tallies);
    answer = outcome.answer;
    state = outcome.state;
    took(kind, caller);
}

static void keep_answer(uint32_t kind, uint32_t caller, otp_answer given)
{
    answer = given;
    took(kind, caller);
}

static void keep_entry(otp_entry given)
{
    otp_answer none = {0};
    entry = given;
    none.number = given.number;
    tally_entry(&given);
    keep_answer(NEXT_ENTRY, NO_CALLER, none);
}

static void keep_card(otp_card given)
{
    otp_answer none = {0};
    card = given;
    none.number = given.number;
    tally_card(&given);
    keep_answer(READ_CARD, NO_CALLER, none);
}

/* A report is told of as many rows as were listed. */
static void keep_repair(otp_outcome outcome, uint32_t listed)
{
    if (outcome.answer.number == OTP_DONE)
        tally_report(report, listed);
    keep(REPAIR, NO_CALLER, outcome);
}

static void keep_taken(otp_taken taken)
{
    note = taken.note;
    keep_answer(TAKE_CHUNK, NO_CALLER, taken.answer);
}

#endif
