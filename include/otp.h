/*
 * otp.h: the one-time programmable rows of an RP2350, for firmware in C.
 *
 * A chip has 4,096 rows of 24 bits, and a burnt bit never clears. This library says what a row reads as, what a write leaves in it,
 * who may do either, and what a job burns. It works on an image of the rows and touches no hardware. It keeps nothing between calls,
 * takes no memory but the stack, and needs nothing from outside but memory functions of the C library, which desk/README.md names.
 *
 * Each call is proved: for every input it answers exactly what its definition says, and it ends. The definitions follow document 01,
 * "Full scope and exact rules". The proof does not cover this header. It asserts the layout of each struct at compile time, and
 * examples/desk.c calls the library by it. It is C11 and C++17.
 *
 *     tools/staticlib otp                                       makes target/staticlib/libotp.a, for x86-64 Linux
 *     cc -Iinclude desk.c target/staticlib/libotp.a -o desk     compiles and links a program
 *     desk/build                                                makes libotp.a for the RP2350's own cores: see desk/README.md
 *
 *
 * What goes in
 *
 * rows      The rows, row 0 first, lent for the call: 4,096 numbers, each at most 0xffffff. A length is a count of elements, not of
 *           bytes, and has 64 bits on every machine. A call that takes the rows as const only reads them. A write, a job, a
 *           rehearsal or a repair burns them in place.
 * state     What the hardware latches at reset, by value. Begin with one of all zeros, `otp_state state = OTP_START;`, and otp_reset.
 *           It locks no page and holds no key, so call nothing else before that reset is done. A call that can change the state
 *           gives it back: keep that one. A write, a job, a rehearsal or a repair gives it back with nothing changed but the tallies,
 *           since what is burnt has no other effect before the next reset. Any contents are allowed, if each bool is 0 or 1.
 * caller    OTP_SECURE, OTP_NONSECURE or OTP_BOOTLOADER. The library believes what it is told. The bootloader runs as Secure, so it may
 *           never do what Secure may not: its read needs its own level, Secure's and that of the keys to be at most OTP_READ_ONLY, and
 *           its write needs all three to be OTP_READ_WRITE.
 *
 * area      The bytes of a job that comes in chunks, lent to each call on it: at least OTP_AREA_BYTES, the longest job. What it holds
 *           before the first chunk does not matter; from then on only otp_take_chunk writes it.
 * note      What has come of such a job, by value. Begin with one of all zeros, `otp_note note = OTP_START;`, and keep the one that each
 *           chunk gives back. Any contents are allowed: what part and least say is believed for the early word alone.
 * present   Two images of a chip's rows, lent to otp_make_job: the one that is, and the one that is to be. They may be the same array.
 * wanted
 * out       Where otp_make_job writes its job: OTP_JOB_BYTES have room for every job.
 * list      The rows that otp_repair looks at: rising, and below 0xf40.
 * report    Where it writes what it found, an entry for each listed row: at least as many entries as the list has.
 * at        A place in a job's bytes, as otp_next_entry takes it and gives it back. Any number is allowed; begin with 7.
 *
 * A number that is too large is refused, and so is a length that is wrong. What no call can see is left to the caller: a pointer is
 * never NULL, also where the length is 0, it points to as many elements as the length says, and what a call writes (the rows, the area,
 * the output, the report) overlaps nothing else that is lent to it.
 *
 *
 * The numbers that come out
 *
 * Each answer has a number: OTP_DONE, or one of the refusals 1 to 14 that are listed below.
 * Where several apply, the first in this order is given: 1, 4, 2, 5, 6, 7, 3, 8, 9. A job has its own order, given at otp_run_job, and
 * so have the making of one, given at otp_make_job, and a repair, given at otp_repair.
 *
 * Any number but 0 is a refusal, and a refusal changes nothing: every row, the state, the area, the note, the output, the report and a
 * place in a job are as they were. Its value, condition, bit, polarity, disagree and pulses are 0, and so is its place, but for a job's 7, 3 and 9.
 *
 *
 * How much of a page is burnt
 *
 * state.tallies[page] is the bits burnt in rows 64 * page to 64 * page + 63, from 0 to OTP_PAGE_BITS: a screen looks it up and counts
 * nothing. It goes by row number for pages 62 and 63 too, and not by the page that a lock row locks. A reset counts every row. It is
 * right from then on, as long as the rows change only through these calls; a caller who alters the rows by himself must reset.
 *
 * A write, a job, a rehearsal or a repair that is done leaves each page that it names at the lesser of OTP_PAGE_BITS and old plus new
 * bits. It names a page if a row of that page is written, or stands in the job or the list, whether or not a bit of it is new, and
 * whether or not a rehearsal came so far. It leaves all other pages as they were, and so do every refusal and every other call but a reset. Any tallies may come in.
 */
#ifndef OTP_H
#define OTP_H

#include <stdbool.h>
#include <stddef.h>
#include <stdint.h>

/* What C and C++ say in different words. OTP_START is the initialiser of a state or a note of all zeros. */
#ifdef __cplusplus
#define OTP_ASSERT(what, why) static_assert(what, why)
#define OTP_ALIGNAS(bytes) alignas(bytes)
#define OTP_ALIGNOF(type) alignof(type)
#define OTP_START {}
extern "C" {
#else
#define OTP_ASSERT(what, why) _Static_assert(what, why)
#define OTP_ALIGNAS(bytes) _Alignas(bytes)
#define OTP_ALIGNOF(type) _Alignof(type)
#define OTP_START {0}
#endif

enum {
    OTP_ROWS = 4096,      /* the rows of a chip, and the only length of rows that is not refused */
    OTP_PAGES = 64,       /* its pages, each with a lock */
    OTP_PAGE_ROWS = 64,   /* the rows of a page */
    OTP_PAGE_BITS = 1536, /* the bits of a page, 24 in each row */
    OTP_KEY_BYTES = 16,   /* the bytes of a key */
    OTP_JOB_BYTES = 3079, /* the bytes of the longest job */
    OTP_AREA_BYTES = 3079 /* the least that an area may have: room for the longest job */
};

/* Callers, and the domains of a lock: each caller has one. */
enum { OTP_SECURE = 0, OTP_NONSECURE = 1, OTP_BOOTLOADER = 2 };

/* Levels of a lock. */
enum { OTP_READ_WRITE = 0, OTP_READ_ONLY = 1, OTP_NO_ACCESS = 2 };

/* Conditions of an ECC read. A row is flag worn where its flag bits, 23 and 22, disagree and it still decodes. */
enum {
    OTP_CLEAN = 0,             /* no bit repaired, and the flag bits agree */
    OTP_REPAIRED = 1,          /* one worn or stray bit among bits 21:0 repaired, and the flag bits agree */
    OTP_FLAG_WORN = 2,         /* the flag bits disagree, and no bit is repaired */
    OTP_FLAG_WORN_REPAIRED = 3 /* the flag bits disagree, and a bit is repaired: two wrong bits, so the value is not certain */
};

/* Polarities of a row: inverted exactly if bits 23 and 22 are both set. */
enum { OTP_PLAIN = 0, OTP_INVERTED = 1 };

/* Numbers. */
enum {
    OTP_DONE = 0,             /* done */
    OTP_REFUSED_LENGTH = 1,   /* there are not 4,096 rows */
    OTP_REFUSED_ROW = 2,      /* the row is above 4,095, or the vote group runs past row 4,095 */
    OTP_REFUSED_ENTRY = 3,    /* an entry of the rows that this call uses is above 16,777,215 */
    OTP_REFUSED_ARGUMENT = 4, /* caller above 2, page above 63, level above 2, domain above 2, vote count neither 3 nor 8, key not
                                 16 bytes, ECC value above 65,535, or raw value above 16,777,215 */
    OTP_REFUSED_ECC = 5,      /* ECC on a row from 0xf80 up, or a vote group with any such row */
    OTP_REFUSED_KEY = 6,      /* a row of a latched valid key */
    OTP_REFUSED_LOCK = 7,     /* the locks and keys do not allow it, or it is not for this caller to do */
    OTP_REFUSED_CODE = 8,     /* ECC read: no value has a code within one bit */
    OTP_REFUSED_FIT = 9,      /* ECC write: neither polarity fits over the bits already set */
    OTP_REFUSED_JOB = 10,     /* the job's bytes are malformed */
    OTP_REFUSED_ORDER = 11,   /* a job's row is out of place, by the rule of its version; or two images differ in a row from 0xf40 up;
                                 or a listed row is from 0xf40 up, or not above the one before it */
    OTP_REFUSED_ROOM = 12,    /* the lent area is shorter than 3,079 bytes, the output shorter than the job, or the report shorter
                                 than the list */
    OTP_REFUSED_LOST = 13,    /* a row has a burnt bit that the wanted one lacks */
    OTP_REFUSED_MANY = 14     /* more than 512 rows differ */
};

/* What a repair finds of a row: a report entry is one of these, and of a mended row 256 x the bit besides. */
enum {
    OTP_ROW_CLEAN = 0,        /* it reads clean */
    OTP_ROW_MENDED = 1,       /* it had lost a 1 among bits 21:0, which is burnt now: it reads clean, as the value that it had */
    OTP_ROW_WORN = 2,         /* it decodes, and no burning mends it: a 1 too many, or the flag bits disagree */
    OTP_ROW_DAMAGED = 3,      /* it does not decode */
    OTP_ROW_NOT_PERMITTED = 4 /* Secure may not write it, and nothing more is said of it */
};

/* What every call answers. A field that a call has no use for is 0. */
typedef struct {
    uint32_t number;    /* OTP_DONE, any other is a refusal */
    uint32_t value;     /* what a read or a vote found, the level that a show shows, the early word of a chunk, or the bytes of a job
                           that was made */
    uint32_t condition; /* of an ECC read: OTP_CLEAN, OTP_REPAIRED, OTP_FLAG_WORN or OTP_FLAG_WORN_REPAIRED */
    uint32_t bit;       /* the repaired bit, 0 to 21, as it is numbered in the row; 0 where none is repaired */
    uint32_t polarity;  /* of an ECC read: OTP_PLAIN or OTP_INVERTED, as the row was read */
    uint32_t disagree;  /* of an ECC read: 1 where bits 23 and 22 of the row disagree, else 0 */
    uint32_t place;     /* of a job: entries are counted from 0. Done, how many leading entries stand whole; refused with 7, 3 or 9,
                           the entry that is refused */
    uint32_t pulses;    /* of a write, a job, a rehearsal or a repair: how many bits it newly set */
} otp_answer;

/* A key as reset latched it. Keys 1 to 6 are keys[0] to keys[5] of the state. */
typedef struct {
    uint16_t words[8]; /* low 16 bits first; 0 for a row that does not decode */
    bool valid;        /* the key's valid flag: its eight rows then answer 6 */
    bool whole;        /* all eight rows decoded: without it the key matches nothing */
} otp_key;

/* What the hardware latches at reset, for each page of 64 rows, the key that was entered since, and each page's bits burnt. Pages 62 and 63 are
   the lock rows: each goes by the levels of the page that it locks, and by the keys and the tally of the page that it is in (erratum E28 for
   the keys). It is aligned so that it is copied by words. */
typedef struct {
    OTP_ALIGNAS(4)
    uint8_t secure[OTP_PAGES];     /* the lock level for Secure; above OTP_NO_ACCESS counts as that, in each of the three domains */
    uint8_t nonsecure[OTP_PAGES];  /* the lock level for Non-secure */
    uint8_t bootloader[OTP_PAGES]; /* the lock level for the bootloader, as it was burnt: no call advances it, and the chip does not enforce it */
    uint8_t writekey[OTP_PAGES];   /* the key that opens the page for writing: 0 none, 1 to 6 a key, 7 never matches; above 7 counts as 7 */
    uint8_t readkey[OTP_PAGES];    /* the key that opens the page for reading only, numbered as those for writing */
    bool nokey[OTP_PAGES];         /* where a key is registered and none matches: false is read only, true is no access */
    otp_key keys[6];               /* the keys */
    uint16_t entered[8];           /* the entered key; all zeros means that none is entered */
    uint16_t tallies[OTP_PAGES];   /* the bits burnt in the page's 64 rows, by row number; any are allowed, above OTP_PAGE_BITS too */
} otp_state;

/* What a call that can change the state answers: the answer, and the state to go on with. */
typedef struct {
    otp_answer answer;
    otp_state state;
} otp_outcome;

/* What has come of a job that comes in chunks, kept between them. */
typedef struct {
    uint32_t counted; /* the bytes taken so far, 3,080 for any more; any more than that counts as 3,080 */
    uint32_t least;   /* the lowest row that may come next: one above the row of the last whole entry, 0 before the first */
    uint8_t part[8];  /* the bytes of the one entry begun, in order, at most five, and zeros behind */
} otp_note;

/* What a chunk is answered: the answer, and the note to go on with. */
typedef struct {
    otp_answer answer;
    otp_note note;
} otp_taken;

/* What stands at a place of a job's bytes: an entry, the end, or OTP_REFUSED_JOB. At the end and at 10 row, kind and value are 0. */
typedef struct {
    uint64_t at;     /* the place after the call: that after the entry; at the end and at 10 the place that came in */
    uint32_t number; /* OTP_DONE, or OTP_REFUSED_JOB for a part entry, a kind above 1 or an ECC value above 65,535 */
    uint32_t end;    /* 1 at the end, else 0 */
    uint32_t row;    /* of an entry: its row, of any 16 bits */
    uint32_t kind;   /* 0 ECC, 1 raw */
    uint32_t value;  /* its value */
} otp_entry;

/* The layout that libotp.a goes by: each field begins where the one before it ends, and the last ends the struct. A compiler that lays
   a struct out otherwise stops here. */
#define OTP_END(type, field) (offsetof(type, field) + sizeof(((type *)0)->field))
#define OTP_FIRST(type, field) OTP_ASSERT(offsetof(type, field) == 0, #field " is not first in " #type)
#define OTP_NEXT(type, field, next) OTP_ASSERT(offsetof(type, next) == OTP_END(type, field), #next " is out of place in " #type)
#define OTP_LAST(type, field) OTP_ASSERT(sizeof(type) == OTP_END(type, field), #type " has not its size")

OTP_ASSERT(sizeof(bool) == 1, "a bool is not a byte");

OTP_FIRST(otp_answer, number);
OTP_NEXT(otp_answer, number, value);
OTP_NEXT(otp_answer, value, condition);
OTP_NEXT(otp_answer, condition, bit);
OTP_NEXT(otp_answer, bit, polarity);
OTP_NEXT(otp_answer, polarity, disagree);
OTP_NEXT(otp_answer, disagree, place);
OTP_NEXT(otp_answer, place, pulses);
OTP_LAST(otp_answer, pulses);

OTP_FIRST(otp_key, words);
OTP_NEXT(otp_key, words, valid);
OTP_NEXT(otp_key, valid, whole);
OTP_LAST(otp_key, whole);

OTP_FIRST(otp_state, secure);
OTP_NEXT(otp_state, secure, nonsecure);
OTP_NEXT(otp_state, nonsecure, bootloader);
OTP_NEXT(otp_state, bootloader, writekey);
OTP_NEXT(otp_state, writekey, readkey);
OTP_NEXT(otp_state, readkey, nokey);
OTP_NEXT(otp_state, nokey, keys);
OTP_NEXT(otp_state, keys, entered);
OTP_NEXT(otp_state, entered, tallies);
OTP_LAST(otp_state, tallies);
OTP_ASSERT(OTP_ALIGNOF(otp_state) == 4, "otp_state is not aligned to words");

OTP_FIRST(otp_outcome, answer);
OTP_NEXT(otp_outcome, answer, state);
OTP_LAST(otp_outcome, state);

OTP_FIRST(otp_note, counted);
OTP_NEXT(otp_note, counted, least);
OTP_NEXT(otp_note, least, part);
OTP_LAST(otp_note, part);

OTP_FIRST(otp_taken, answer);
OTP_NEXT(otp_taken, answer, note);
OTP_LAST(otp_taken, note);

OTP_FIRST(otp_entry, at);
OTP_NEXT(otp_entry, at, number);
OTP_NEXT(otp_entry, number, end);
OTP_NEXT(otp_entry, end, row);
OTP_NEXT(otp_entry, row, kind);
OTP_NEXT(otp_entry, kind, value);
OTP_ASSERT(sizeof(otp_entry) == 32, "otp_entry has not its size"); /* four bytes behind the last field keep its first aligned */

#undef OTP_LAST
#undef OTP_NEXT
#undef OTP_FIRST
#undef OTP_END
#undef OTP_ALIGNOF
#undef OTP_ALIGNAS
#undef OTP_ASSERT

/* Resets the chip: latches locks and keys from the rows, counts the bits burnt in each page, and forgets the entered key and the locks
   advanced since the last reset. A burnt lock or key has no effect before this. It takes a state because a reset that is refused gives it
   back as it came; one that is done goes by the rows alone. Numbers 0, 1, 3. */
otp_outcome otp_reset(const uint32_t *rows, uint64_t rows_len, otp_state state);

/* Reads the 24 bits of a row as they are. Numbers 0, 1, 4, 2, 6, 7, 3. */
otp_answer  otp_read_raw(const uint32_t *rows, uint64_t rows_len, otp_state state, uint32_t caller, uint32_t row);

/* Reads the 16 bits of a row with ECC. One wrong bit among bits 21:0 is repaired in the answer, and the condition and bit say which;
   the row itself is left. Where bits 23 and 22 disagree the row is read as plain: a plain row with a stray flag bit still decodes and is
   flag worn, an inverted row that lost a flag bit is refused with 8. With one wrong bit more either can be read, as OTP_FLAG_WORN_REPAIRED,
   and the inverted one as another value than it held: do not rely on that value. Numbers 0, 1, 4, 2, 5, 6, 7, 3, 8. */
otp_answer  otp_read_ecc(const uint32_t *rows, uint64_t rows_len, otp_state state, uint32_t caller, uint32_t row);

/* Reads the vote of 3 or 8 rows, the first of them `row`. A bit is set if at least two of three rows have it, or three of eight.
   Numbers 0, 1, 4, 2, 5, 6, 7, 3; the first row from below that meets 6, 7 or 3 answers. */
otp_answer  otp_read_vote(const uint32_t *rows, uint64_t rows_len, otp_state state, uint32_t caller, uint32_t row, uint32_t count);

/* Burns the bits of a value of 24 bits into a row; bits already set stay. Numbers 0, 1, 4, 2, 6, 7, 3. */
otp_outcome otp_write_raw(uint32_t *rows, uint64_t rows_len, otp_state state, uint32_t caller, uint32_t row, uint32_t value);

/* Burns a value of 16 bits with its code into a row: plain if the bits already set allow it, otherwise inverted.
   Numbers 0, 1, 4, 2, 5, 6, 7, 3, 9. */
otp_outcome otp_write_ecc(uint32_t *rows, uint64_t rows_len, otp_state state, uint32_t caller, uint32_t row, uint32_t value);

/* Repairs listed rows as Secure: burns the lost 1 of each row that reads repaired, whose flag bits agree, and that lacks the repaired bit
   as it is stored, in its own polarity. That is one pulse a row, lowest row first. The report says of each listed row what was found of it
   before: `report[i] % 256` is one of OTP_ROW_CLEAN to OTP_ROW_NOT_PERMITTED, `report[i] / 256` the bit of a mended row, as it is numbered
   in the row, and 0 of any other. Its entries past the list are left. Only mended rows alter, and a second pass mends nothing. Where an
   entry that is too large stands in a row that Secure may not write, that row is OTP_ROW_NOT_PERMITTED. Numbers 0, 1, 11, 12, 3. */
otp_outcome otp_repair(uint32_t *rows, uint64_t rows_len, otp_state state, const uint32_t *list, uint64_t list_len, uint32_t *report, uint64_t report_len);

/* Advances the lock of a page in a domain, OTP_SECURE or OTP_NONSECURE, to a level, until the next reset. An equal or lower level is
   done and changes nothing. Secure may advance both of these, Non-secure only its own, and the bootloader none. The bootloader's own lock
   is only burnt: to advance OTP_BOOTLOADER is 7 for every caller, at any level. Numbers 0, 4, 7. */
otp_outcome otp_advance(otp_state state, uint32_t caller, uint32_t domain, uint32_t page, uint32_t level);

/* Shows the lock level of a page in a domain, as the value. Every caller may show all three domains. Numbers 0, 4. */
otp_answer  otp_show(otp_state state, uint32_t caller, uint32_t domain, uint32_t page);

/* Enters a key of 16 bytes, low byte first, in place of any entered before. Only Secure may: for the bootloader it is 7 too. That it is
   done does not say that it matches a key. 16 zeros mean that none is entered. Numbers 0, 4, 7. */
otp_outcome otp_enter_key(otp_state state, uint32_t caller, const uint8_t *key, uint64_t key_len);

/* Runs a job as Secure. All of it is judged before the first bit is burnt, so a job is burnt whole or not at all.
   Its bytes, low byte first in each number: 4F 54 4A, a 16-bit version, 1 or 2, a 16-bit count of 0 to 512, then as many entries of
   six bytes, a 16-bit row, a kind (0 ECC, 1 raw) and a 24-bit value. Rows ascend. In version 1 they stay below 0xf40. In version 2 lock
   rows may follow, from 0xf80 on, as raw entries: once one of them has changed, the next reset may latch that the job is refused with 7,
   and its data rows are finished.
   Numbers 0, 1, 10, 11, then entry by entry 7, 3, 9. */
otp_outcome otp_run_job(uint32_t *rows, uint64_t rows_len, otp_state state, const uint8_t *job, uint64_t job_len);

/* Rehearses a job: judged and burnt like otp_run_job, it stops after `limit` pulses, as if the power went there, and answers 0. Bits
   of a row are burnt upward. It burns the rows that it is lent: lend it a copy to keep them. Numbers as of otp_run_job. */
otp_outcome otp_rehearse(uint32_t *rows, uint64_t rows_len, otp_state state, const uint8_t *job, uint64_t job_len, uint32_t limit);

/* Takes a chunk of a job, of any length, 0 too, and keeps its bytes in the area: those of a job come in order, in as many chunks as it
   takes. Nothing is burnt. The value is the early word, so that the sender can stop: OTP_REFUSED_JOB or OTP_REFUSED_ORDER for the first fault
   among what this chunk brought to its end, in the order of the bytes: a wrong byte of the mark, an unknown version, a count above 512, each
   whole entry by its form and then by its row, a byte past the last entry. It is 0 where there is none, whatever was said before. Once some
   chunk has said 10, the end on whole rows is refused with 10 whatever else comes, and once one has said 11, with 10 or 11. What stands past
   the first 3,079 bytes of the area is left as it is, and so is every byte of it that the chunk does not bring. Numbers 0, 12. */
otp_taken   otp_take_chunk(uint8_t *area, uint64_t area_len, otp_note note, const uint8_t *chunk, uint64_t chunk_len);

/* Announces the end: runs the first `note.counted` bytes of the area as otp_run_job runs a job. Through any chunks, from a note of all
   zeros, it answers and burns what otp_run_job does for the whole. The area and the note are left, and the same end may be announced
   again: it is the same job again. Numbers 0, 1, 12, 10 for a count past 3,079, and then those of otp_run_job. */
otp_outcome otp_end_job(uint32_t *rows, uint64_t rows_len, otp_state state, const uint8_t *area, uint64_t area_len, otp_note note);

/* Makes the job that burns a present image of a chip into a wanted one: a version 1 job of raw entries, rising, one for each row below
   0xf40 that differs, which carries the wanted row. Its length in bytes is the value, and the bytes of the output past it are left. No shorter
   job does it. Of equal images it has no entries. Run on the present image it is refused with 7, where Secure may not write a row that
   differs, or it leaves the wanted image, for as many pulses as bits differ. Numbers 0, 1, 3, 13, 11, 14, 12. */
otp_answer  otp_make_job(const uint32_t *present, uint64_t present_len, const uint32_t *wanted, uint64_t wanted_len, uint8_t *out, uint64_t out_len);

/* Hands over the entry at a place of a job's bytes, and the place after it. The first entry stands at 7; from there on the places that come
   back lead to the end, at or past the length. It reads no head, and judges no row: of a job that otp_run_job does not refuse with 10, it hands
   over all entries and then the end. Numbers 0, 10. */
otp_entry   otp_next_entry(const uint8_t *job, uint64_t job_len, uint64_t at);

#ifdef __cplusplus
}
#endif

#endif
