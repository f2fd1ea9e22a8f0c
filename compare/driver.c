/*
 * driver.c: libotp.a and libsplash.a behind a pipe, for the comparison with the model.
 *
 * Reads requests from standard input and answers each on standard output, until the input ends. It keeps an image of the rows and a
 * second one, the wanted rows of a job that is made, between requests, blank at the start, so that a request holds only the entries that
 * are to differ. All numbers are 32 bits, low byte first; structs are as they lie in memory.
 *
 *     request     call, two counts of rows lent, two counts of entries, counts of two lots of bytes, four arguments, the state (636
 *                 bytes), the entries (place, value) of the one image and of the other, then the bytes: those of a key, a job, an area or
 *                 an output, and those of a chunk; or those of a report and of a list of rows, four for each entry. The arguments of a
 *                 call that takes a note are its 16 bytes, those of one that takes a place its two halves, low half first, and that of one
 *                 that takes two images is 1 where the first is lent for both
 *     reply       count of entries, the answer (32 bytes), the state if the call gives one back, or the note (16 bytes) and the area's
 *                 bytes, or the output's bytes, or the state and the report's bytes, then the entries (place, value) that the call changed.
 *                 In the answer's place stands what the reader hands over (28 bytes), or a card (20 bytes)
 *
 * One request is for many calls, READ_EACH: a row is read with ECC once for each of many entries in it, which go up by one. Its
 * arguments are the caller, the row, the first entry and how many. Its reply has as many answers, and the row is left as it was.
 *
 * The whole image is looked at after each request, so a change to an entry that the call was not lent is told too. A call that changes
 * the second image, bytes which it was lent to read, a list too, or bytes behind those that it was lent, ends the program with one line and
 * 1, and so does a request that is none of these.
 *
 *     tools/staticlib otp splash
 *     cc -std=c11 -O2 -Iinclude compare/driver.c target/staticlib/libotp.a target/staticlib/libsplash.a -o target/driver
 */
#include "splash.h"

#include <stdio.h>
#include <stdlib.h>
#include <string.h>

enum { ENTRIES = 8192, MOST_BYTES = 65536, BEHIND = 1024, MOST_ANSWERS = 65536, PIPE = 1 << 16 };

/* The calls, in the order of the list in src/call.rs: tests/driver.rs holds the two to each other. */
typedef enum {
    RESET, READ_RAW, READ_ECC, READ_VOTE, WRITE_RAW, WRITE_ECC, ADVANCE, SHOW, ENTER_KEY, RUN_JOB, REHEARSE, TAKE_CHUNK, END_JOB,
    MAKE_JOB, NEXT_ENTRY, REPAIR, READ_CARD, WRITE_CARD
} call;

/* The same as in src/driver.rs, and no place in the list. */
enum { READ_EACH = 0x10000 };

typedef struct {
    uint32_t call;
    uint32_t rows_len;
    uint32_t wanted_len;
    uint32_t entries[2];
    uint32_t bytes[2];
    uint32_t arguments[4];
    otp_state state;
} request;

typedef struct {
    uint32_t place;
    uint32_t value;
} entry;

/* What goes through the pipe has no gaps. */
_Static_assert(sizeof(request) == 44 + 636, "size of request");
_Static_assert(sizeof(entry) == 8, "size of entry");
_Static_assert(sizeof(otp_answer) == 32, "size of otp_answer");
_Static_assert(sizeof(otp_note) == 16 && offsetof(otp_note, part) == 8, "size of otp_note, and place of its part");
_Static_assert(sizeof(otp_taken) == 32 + 16 && offsetof(otp_taken, note) == 32, "size of otp_taken, and place of its note");
_Static_assert(offsetof(otp_entry, number) == 8 && offsetof(otp_entry, value) == 24, "places of the fields of otp_entry");
_Static_assert(sizeof(otp_card) == 20 && offsetof(otp_card, line) == 16, "size of otp_card, and place of its line");
_Static_assert(sizeof(otp_state) == 636, "size of otp_state");
_Static_assert(offsetof(otp_state, bootloader) == 128, "place of the bootloader's levels");
_Static_assert(offsetof(otp_state, keys) == 384 && sizeof(otp_key) == 18, "place and size of the keys");
_Static_assert(offsetof(otp_state, entered) == 492, "place of the entered key");
_Static_assert(offsetof(otp_state, tallies) == 508 && sizeof(((otp_state *)0)->tallies) == 128, "place and size of the tallies");

/* The image, and the same before the call. Between calls the two are equal. */
static uint32_t image[ENTRIES];
static uint32_t before[ENTRIES];

/* The second image, which is only lent to be read, and the same before the call. */
static uint32_t wanted[ENTRIES];
static uint32_t wanted_before[ENTRIES];

static entry entries[ENTRIES];
static otp_answer answers[MOST_ANSWERS];

/* A lot of bytes, which may be those of entries, and the same before the call. Some lie behind those that a call is lent: what the requests
   before it left there. */
typedef struct {
    union {
        uint8_t now[MOST_BYTES + BEHIND];
        uint32_t entries[(MOST_BYTES + BEHIND) / sizeof(uint32_t)];
    };
    uint8_t before[MOST_BYTES + BEHIND];
} lot;
static lot lots[2];

_Noreturn static void stop(const char *why)
{
    fprintf(stderr, "driver: %s\n", why);
    exit(1);
}

static void take(void *place, size_t size, size_t count)
{
    if (fread(place, size, count, stdin) != count) {
        stop("the input ends inside a request");
    }
}

static void give(const void *place, size_t size, size_t count)
{
    if (fwrite(place, size, count, stdout) != count) {
        stop("a reply cannot be written");
    }
}

/* Takes as many entries and lays them into an image. */
static void lay(uint32_t count, uint32_t *now, uint32_t *then)
{
    take(entries, sizeof *entries, count);
    for (uint32_t i = 0; i < count; i++) {
        if (entries[i].place >= ENTRIES) {
            stop("an entry lies outside the image");
        }
        now[entries[i].place] = entries[i].value;
        then[entries[i].place] = entries[i].value;
    }
}

static bool too_large(const request *r)
{
    return r->rows_len > ENTRIES || r->wanted_len > ENTRIES || r->entries[0] > ENTRIES || r->entries[1] > ENTRIES ||
           r->bytes[0] > MOST_BYTES || r->bytes[1] > MOST_BYTES;
}

/* Takes the next request with its entries and bytes; false at the end of the input. */
static bool next(request *asked)
{
    if (fread(asked, 1, 1, stdin) != 1) {
        return false;
    }
    take((char *)asked + 1, sizeof *asked - 1, 1);
    if (too_large(asked)) {
        stop("a request is too large");
    }
    lay(asked->entries[0], image, before);
    lay(asked->entries[1], wanted, wanted_before);
    for (int i = 0; i < 2; i++) {
        take(lots[i].now, 1, asked->bytes[i]);
        memcpy(lots[i].before, lots[i].now, asked->bytes[i] + BEHIND);
    }
    return true;
}

/* Notes every entry that the call changed, and gives how many. */
static uint32_t changed(void)
{
    uint32_t count = 0;

    if (memcmp(image, before, sizeof image) == 0) {
        return 0;
    }
    for (uint32_t place = 0; place < ENTRIES; place++) {
        if (image[place] != before[place]) {
            entries[count].place = place;
            entries[count].value = image[place];
            before[place] = image[place];
            count++;
        }
    }
    return count;
}

/* What comes back of a call: how much of it is to be told, and how many bytes of the area, the output or the report with it. */
typedef struct {
    union {
        otp_answer answer;
        otp_outcome outcome;
        otp_taken taken;
        otp_entry handed;
        otp_card card;
    } back;
    size_t size;
    size_t area;
} made;

static made answer(otp_answer back) { return (made){.back.answer = back, .size = sizeof back}; }
static made outcome(otp_outcome back) { return (made){.back.outcome = back, .size = sizeof back}; }
static made taken(otp_taken back, size_t area) { return (made){.back.taken = back, .size = sizeof back, .area = area}; }
static made output(otp_answer back, size_t area) { return (made){.back.answer = back, .size = sizeof back, .area = area}; }
static made passed(otp_outcome back, size_t area) { return (made){.back.outcome = back, .size = sizeof back, .area = area}; }
static made shown(otp_card back) { return (made){.back.card = back, .size = sizeof back}; }

/* Nothing is promised of what lies behind the last field. */
static made handed(otp_entry back) { return (made){.back.handed = back, .size = offsetof(otp_entry, value) + sizeof back.value}; }

/* The note that a request has for its arguments. */
static otp_note noted(const request *r)
{
    otp_note note;

    memcpy(&note, r->arguments, sizeof note);
    return note;
}

/* Makes a job of the image and of the second one, or of the image and itself. */
static made make_job(const request *r, uint8_t *out, uint64_t length)
{
    bool same = r->arguments[0] != 0;

    return output(otp_make_job(image, r->rows_len, same ? image : wanted, same ? r->rows_len : r->wanted_len, out, length), length);
}

/* Repairs the rows of the second lot, and leaves what is told of them in the first. */
static made repair(const request *r)
{
    uint64_t told = r->bytes[0] / sizeof(uint32_t), listed = r->bytes[1] / sizeof(uint32_t);

    return passed(otp_repair(image, r->rows_len, r->state, lots[1].entries, listed, lots[0].entries, told), r->bytes[0]);
}

/* Makes the call. There is no default, so that the compiler names a call that is missing. */
static made make(const request *r)
{
    const uint32_t *a = r->arguments;
    uint8_t *bytes = lots[0].now;
    uint64_t length = r->bytes[0];

    switch ((call)r->call) {
    case RESET:
        return outcome(otp_reset(image, r->rows_len, r->state));
    case READ_RAW:
        return answer(otp_read_raw(image, r->rows_len, r->state, a[0], a[1]));
    case READ_ECC:
        return answer(otp_read_ecc(image, r->rows_len, r->state, a[0], a[1]));
    case READ_VOTE:
        return answer(otp_read_vote(image, r->rows_len, r->state, a[0], a[1], a[2]));
    case WRITE_RAW:
        return outcome(otp_write_raw(image, r->rows_len, r->state, a[0], a[1], a[2]));
    case WRITE_ECC:
        return outcome(otp_write_ecc(image, r->rows_len, r->state, a[0], a[1], a[2]));
    case ADVANCE:
        return outcome(otp_advance(r->state, a[0], a[1], a[2], a[3]));
    case SHOW:
        return answer(otp_show(r->state, a[0], a[1], a[2]));
    case ENTER_KEY:
        return outcome(otp_enter_key(r->state, a[0], bytes, length));
    case RUN_JOB:
        return outcome(otp_run_job(image, r->rows_len, r->state, bytes, length));
    case REHEARSE:
        return outcome(otp_rehearse(image, r->rows_len, r->state, bytes, length, a[0]));
    case TAKE_CHUNK:
        return taken(otp_take_chunk(bytes, length, noted(r), lots[1].now, r->bytes[1]), length);
    case END_JOB:
        return outcome(otp_end_job(image, r->rows_len, r->state, bytes, length, noted(r)));
    case MAKE_JOB:
        return make_job(r, bytes, length);
    case NEXT_ENTRY:
        return handed(otp_next_entry(bytes, length, a[0] | (uint64_t)a[1] << 32));
    case REPAIR:
        return repair(r);
    case READ_CARD:
        return shown(otp_read_card(image, r->rows_len, r->state));
    case WRITE_CARD:
        return output(otp_write_card(bytes, length, a[0], a[1], a[2], a[3]), length);
    }
    stop("there is no such call");
}

/* Stops where bytes changed from a place on that the call was not lent to change. */
static void hold(const lot *held, size_t from, size_t length)
{
    if (memcmp(held->now + from, held->before + from, length - from + BEHIND) != 0) {
        stop("a call changed bytes that it was not lent for that");
    }
}

/* Writes the reply: what came back, with so many bytes of the area, and the entries that changed. */
static void tell(const void *back, size_t size, size_t area)
{
    uint32_t count = changed();

    give(&count, sizeof count, 1);
    give(back, size, 1);
    give(lots[0].now, 1, area);
    give(entries, sizeof *entries, count);
    if (fflush(stdout) != 0) {
        stop("a reply cannot be written");
    }
}

static void reply(const request *r)
{
    made m = make(r);

    if (memcmp(wanted, wanted_before, sizeof wanted) != 0) {
        stop("a call changed an image that it was lent to read");
    }
    hold(&lots[0], m.area, r->bytes[0]);
    hold(&lots[1], 0, r->bytes[1]);
    tell(&m.back, m.size, m.area);
}

static void reply_each(const request *r)
{
    uint32_t caller = r->arguments[0], row = r->arguments[1], first = r->arguments[2], count = r->arguments[3];

    if (row >= ENTRIES || count == 0 || count > MOST_ANSWERS) {
        stop("a request for many reads is out of range");
    }
    for (uint32_t i = 0; i < count; i++) {
        image[row] = first + i;
        answers[i] = otp_read_ecc(image, r->rows_len, r->state, caller, row);
        /* Seen here, since the next entry would hide it. */
        if (image[row] != first + i) {
            stop("a read changed its row");
        }
    }
    image[row] = before[row];
    tell(answers, count * sizeof *answers, 0);
}

int main(void)
{
    static char in[PIPE], out[PIPE];
    static request asked;

    setvbuf(stdin, in, _IOFBF, sizeof in);
    setvbuf(stdout, out, _IOFBF, sizeof out);
    while (next(&asked)) {
        if (asked.call == READ_EACH) {
            reply_each(&asked);
        } else {
            reply(&asked);
        }
    }
    return 0;
}
