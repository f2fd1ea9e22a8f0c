/* What desk/calls.c counts: how often each call gave each number, how often each caller was done and was refused with 7, how often an ECC
   read said each condition, a chunk each early word, the reader the end, a repair pass each kind of row and a card read each version, and how often a call that burns raised a page's
   tally, held one to a full page, or brought one down. One that can be given and never was is an error, and so is a number or a word that the call cannot give. */
#ifndef TALLY_H
#define TALLY_H

#include "otp.h"
#include "splash.h"

#include <stdio.h>
#include <string.h>

enum { RESET, READ_RAW, READ_ECC, READ_VOTE, WRITE_RAW, WRITE_ECC, ADVANCE, SHOW, ENTER_KEY, RUN_JOB, REHEARSE, TAKE_CHUNK, END_JOB, MAKE_JOB, NEXT_ENTRY, REPAIR, READ_CARD, WRITE_CARD, KINDS };
enum { NUMBERS = 18 };

/* Secure, Non-secure and the bootloader. A call that takes no caller is made by none of them. */
enum { CALLERS = 3, NO_CALLER = CALLERS };

/* Each kind of call, and the numbers that it can give: a digit of these for each, in the header's order. Where it takes a caller, also which of
   0 and 7 it can give to each. */
static const char digits[NUMBERS + 1] = "0123456789abcdefgh";
static const struct {
    const char *name, *numbers, *to[CALLERS];
} kinds[KINDS] = {
    {"reset", "013", {"", "", ""}},
    {"read raw", "0142673", {"07", "07", "07"}},
    {"read ECC", "014256738", {"07", "07", "07"}},
    {"read vote", "01425673", {"07", "07", "07"}},
    {"write raw", "0142673", {"07", "07", "07"}},
    {"write ECC", "014256739", {"07", "07", "07"}},
    {"advance", "047", {"07", "07", "7"}},
    {"show", "04", {"0", "0", "0"}},
    {"enter key", "047", {"0", "7", "7"}},
    {"run job", "01ab739", {"", "", ""}},
    {"rehearse", "01ab739", {"", "", ""}},
    {"take chunk", "0c", {"", "", ""}},
    {"end job", "01cab739", {"", "", ""}},
    {"make job", "013dbec", {"", "", ""}},
    {"next entry", "0a", {"", "", ""}},
    {"repair", "01bc3", {"", "", ""}},
    {"read card", "01738fgh", {"", "", ""}},
    {"write card", "0ghc", {"", "", ""}},
};

/* What a done ECC read can say of its row. A row with a worn flag is never inverted. */
static const struct {
    const char *name;
    uint32_t condition, polarity;
} conditions[] = {
    {"plain, clean", OTP_CLEAN, OTP_PLAIN},
    {"plain, repaired", OTP_REPAIRED, OTP_PLAIN},
    {"inverted, clean", OTP_CLEAN, OTP_INVERTED},
    {"inverted, repaired", OTP_REPAIRED, OTP_INVERTED},
    {"flag worn", OTP_FLAG_WORN, OTP_PLAIN},
    {"flag worn, repaired", OTP_FLAG_WORN_REPAIRED, OTP_PLAIN},
};
enum { CONDITIONS = sizeof conditions / sizeof conditions[0] };

/* The early words of a done chunk. */
static const uint32_t words[] = {0, OTP_REFUSED_JOB, OTP_REFUSED_ORDER};
enum { WORDS = sizeof words / sizeof words[0] };

static uint32_t gave[KINDS][NUMBERS], gave_to[CALLERS][KINDS][NUMBERS], said[CONDITIONS], warned[WORDS];

/* How often the reader handed over an entry, and how often it said the end. */
static uint32_t handed, ended;

static void tally_condition(const otp_answer *answer)
{
    for (uint32_t i = 0; i < CONDITIONS; i++)
        said[i] += answer->condition == conditions[i].condition && answer->polarity == conditions[i].polarity;
}

static void tally_word(const otp_answer *answer)
{
    for (uint32_t i = 0; i < WORDS; i++)
        warned[i] += answer->value == words[i];
}

static void tally_entry(const otp_entry *entry)
{
    handed += entry->number == OTP_DONE && !entry->end;
    ended += entry->end;
}

/* How often a card of each version was read. */
enum { VERSIONS = 2 };
static uint32_t carded[VERSIONS];

static void tally_card(const otp_card *card)
{
    if (card->number == OTP_DONE)
        carded[(card->version - 1) % VERSIONS]++;
}

/* How often a repair pass told each kind of a listed row. */
static uint32_t found[OTP_ROW_NOT_PERMITTED + 1];

static void tally_report(const uint32_t *report, uint32_t listed)
{
    for (uint32_t i = 0; i < listed; i++)
        found[report[i] % 256 % (OTP_ROW_NOT_PERMITTED + 1)]++;
}

static void tally(uint32_t kind, uint32_t caller, const otp_answer *answer)
{
    gave[kind][answer->number % NUMBERS]++;
    if (caller < CALLERS)
        gave_to[caller][kind][answer->number % NUMBERS]++;
    if (kind == READ_ECC && answer->number == OTP_DONE)
        tally_condition(answer);
    if (kind == TAKE_CHUNK && answer->number == OTP_DONE)
        tally_word(answer);
}

/* What a call that burns can do to the tally of a page: raise it by the bits that are new, hold it to a full page where they are too many, or
   bring it down to that. */
enum { RAISED, HELD, LOWERED, CHANGES };
static const char *const changes[CHANGES] = {"raised", "held to 1536", "brought down"};
static uint32_t changed[KINDS][CHANGES];

static bool burns(uint32_t kind)
{
    return kind == WRITE_RAW || kind == WRITE_ECC || kind == RUN_JOB || kind == REHEARSE || kind == END_JOB || kind == REPAIR;
}

/* Counts what a call did. Where no tally came down and all together went up by less than the pulses, some page was held. */
static void tally_pages(uint32_t kind, const otp_answer *answer, const uint16_t *before, const uint16_t *after)
{
    uint32_t raised = 0, lowered = 0;
    if (!burns(kind))
        return;
    for (uint32_t page = 0; page < OTP_PAGES; page++) {
        raised += after[page] > before[page] ? (uint32_t)(after[page] - before[page]) : 0;
        lowered += after[page] < before[page];
    }
    changed[kind][RAISED] += raised != 0;
    changed[kind][HELD] += lowered == 0 && raised < answer->pulses;
    changed[kind][LOWERED] += lowered != 0;
}

/* How often a call that burns did each, and whether it did. */
static bool told_changes(uint32_t kind)
{
    bool all = true;
    printf("%-10s", kinds[kind].name);
    for (uint32_t i = 0; i < CHANGES; i++) {
        printf("   %s: %5u", changes[i], (unsigned)changed[kind][i]);
        all = all && changed[kind][i] != 0;
    }
    printf("\n");
    return all;
}

/* How often a call gave each number, and whether it gave all that it can and no other. */
static bool told_numbers(uint32_t kind)
{
    bool all = true;
    printf("%-10s", kinds[kind].name);
    for (uint32_t number = 0; number < NUMBERS; number++) {
        bool can = strchr(kinds[kind].numbers, digits[number]) != NULL;
        printf(" %5u", (unsigned)gave[kind][number]);
        all = all && can == (gave[kind][number] != 0);
    }
    printf("\n");
    return all;
}

/* How often a call gave 0 and 7 to each caller, and whether it gave each caller what it can and no other. */
static bool told_callers(uint32_t kind)
{
    bool all = true;
    printf("%-10s", kinds[kind].name);
    for (uint32_t caller = 0; caller < CALLERS; caller++) {
        uint32_t done = gave_to[caller][kind][OTP_DONE], lock = gave_to[caller][kind][OTP_REFUSED_LOCK];
        bool can_do = strchr(kinds[kind].to[caller], '0') != NULL, can_lock = strchr(kinds[kind].to[caller], '7') != NULL;
        printf("   caller %u: %5u %5u", (unsigned)caller, (unsigned)done, (unsigned)lock);
        all = all && can_do == (done != 0) && can_lock == (lock != 0);
    }
    printf("\n");
    return all;
}

/* How often an ECC read said a condition, and whether it did. */
static bool told_condition(uint32_t i)
{
    printf("%-20s %5u\n", conditions[i].name, (unsigned)said[i]);
    return said[i] != 0;
}

/* How often a chunk said each early word, and whether it said all of them and no other. */
static bool told_words(void)
{
    bool all = true;
    uint32_t done = 0;
    printf("early word");
    for (uint32_t i = 0; i < WORDS; i++) {
        printf("   %2u: %5u", (unsigned)words[i], (unsigned)warned[i]);
        all = all && warned[i] != 0;
        done += warned[i];
    }
    printf("\n");
    return all && done == gave[TAKE_CHUNK][OTP_DONE];
}

/* How often the reader handed over an entry and said the end, and whether it did each. */
static bool told_entries(void)
{
    printf("handed over %5u   end %5u\n", (unsigned)handed, (unsigned)ended);
    return handed != 0 && ended != 0 && handed + ended == gave[NEXT_ENTRY][OTP_DONE];
}

/* How often a repair pass told each kind of a row, and whether it did. */
static bool told_rows(void)
{
    bool all = true;
    printf("rows told ");
    for (uint32_t kind = OTP_ROW_CLEAN; kind <= OTP_ROW_NOT_PERMITTED; kind++) {
        printf("   %u: %6u", (unsigned)kind, (unsigned)found[kind]);
        all = all && found[kind] != 0;
    }
    printf("\n");
    return all;
}

/* How often a card of each version was read, and whether it was. */
static bool told_versions(void)
{
    printf("cards of version 1: %5u   2: %5u\n", (unsigned)carded[0], (unsigned)carded[1]);
    return carded[0] != 0 && carded[1] != 0;
}

static bool all_told(void)
{
    bool all = true;
    for (uint32_t kind = 0; kind < KINDS; kind++)
        all = told_numbers(kind) && all;
    for (uint32_t kind = READ_RAW; kind <= ENTER_KEY; kind++)
        all = told_callers(kind) && all;
    for (uint32_t i = 0; i < CONDITIONS; i++)
        all = told_condition(i) && all;
    all = told_words() && all;
    all = told_entries() && all;
    all = told_rows() && all;
    all = told_versions() && all;
    for (uint32_t kind = 0; kind < KINDS; kind++)
        all = (!burns(kind) || told_changes(kind)) && all;
    if (!all)
        printf("a call never gave a number, a condition, a word, a kind of row or a card that it can give, never changed a tally as it can, or gave what it cannot\n");
    return all;
}

#endif
