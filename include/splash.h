/*
 * splash.h: the splash card of a desk, for firmware in C. A second library, above that of otp.h.
 *
 * The card says how large the logo is that a desk shows when it starts. It stands in ECC rows from 0x0c0 on: the two values of its mark, 0x5053
 * and 0x004c, its version, the width, the height, and in version 2 the bytes in a line. This library reads the card from an image of the rows,
 * and makes the job that burns one. Like that of otp.h it keeps nothing between calls, takes no memory but the stack, touches no hardware, and
 * needs nothing from outside but memory functions of the C library.
 *
 * A card that is read has sizes in their ranges, whatever the rows and the state hold: where the number is OTP_DONE, the width is 1 to
 * OTP_CARD_WIDEST, the height 1 to OTP_CARD_HIGHEST, and the line the width to OTP_CARD_LONGEST_LINE. So line x height is at most 245,760, and
 * who takes these sizes writes nothing outside a buffer of so many bytes. This is proved, as is what each call answers: as for otp.h, and
 * without this header. It is C11 and C++17, and asserts the layout of its struct at compile time.
 *
 *     tools/staticlib otp splash                                makes target/staticlib/libsplash.a too, for x86-64 Linux
 *     cc -Iinclude splash.c target/staticlib/libsplash.a target/staticlib/libotp.a -o splash
 *     desk/build                                                makes both for the RP2350's own cores: see desk/README.md
 *
 * The two archives may stand in either order. Neither needs the other, so a program without a card links libotp.a alone. otp.h says what the
 * rows, the state and a job are, and what is left to the caller. examples/splash.c makes both calls.
 */
#ifndef SPLASH_H
#define SPLASH_H

#include "otp.h"

#ifdef __cplusplus
extern "C" {
#endif

/* Numbers of a card, beside those of otp.h; the largest sizes, each of which is at least 1; and the bytes of its job. */
enum {
    OTP_REFUSED_MARK = 15,        /* the first two values are not the mark: there is no card */
    OTP_REFUSED_VERSION = 16,     /* the version is neither 1 nor 2 */
    OTP_REFUSED_SIZE = 17,        /* the width, the height or the bytes in a line are out of their range */
    OTP_CARD_WIDEST = 320,        /* the largest width */
    OTP_CARD_HIGHEST = 240,       /* the largest height */
    OTP_CARD_LONGEST_LINE = 1024, /* the most bytes in a line, which has at least the width */
    OTP_CARD_JOB_BYTES = 43       /* the bytes of the longest job of a card, that of version 2; version 1 has 37 */
};

/* A card, or none: a refusal has all four numbers of the card 0. */
typedef struct {
    uint32_t number;  /* OTP_DONE, any other is a refusal */
    uint32_t version; /* 1 or 2 */
    uint32_t width;   /* 1 to 320 */
    uint32_t height;  /* 1 to 240 */
    uint32_t line;    /* the bytes in a line: at least the width and at most 1,024; of version 1 the width */
} otp_card;

/* The layout that libsplash.a goes by: each field begins where the one before it ends, and the last ends the struct. A compiler that lays
   it out otherwise stops here. */
#ifdef __cplusplus
#define OTP_CARD_ASSERT(what, why) static_assert(what, why)
#else
#define OTP_CARD_ASSERT(what, why) _Static_assert(what, why)
#endif
#define OTP_CARD_END(field) (offsetof(otp_card, field) + sizeof(uint32_t))
#define OTP_CARD_NEXT(field, next) OTP_CARD_ASSERT(offsetof(otp_card, next) == OTP_CARD_END(field), #next " is out of place in otp_card")

OTP_CARD_ASSERT(offsetof(otp_card, number) == 0, "number is not first in otp_card");
OTP_CARD_NEXT(number, version);
OTP_CARD_NEXT(version, width);
OTP_CARD_NEXT(width, height);
OTP_CARD_NEXT(height, line);
OTP_CARD_ASSERT(sizeof(otp_card) == OTP_CARD_END(line), "otp_card has not its size");

#undef OTP_CARD_NEXT
#undef OTP_CARD_END
#undef OTP_CARD_ASSERT

/* Reads the card as Non-secure, who must be allowed to read page 3. A row with one wrong bit among bits 21:0 is repaired, as by otp_read_ecc.
   The sixth row, 0x0c5, is looked at in version 2 alone.
   Numbers 0; those of an ECC read of rows 0x0c0 to 0x0c4, lowest row first, each row's 1, 6, 7, 3, 8 before the next row's; 15; 16; of a
   version 2 card those of row 0x0c5; 17. (6 never comes, since none of the rows is a key's. All are in one page, so 7 comes of the first or of
   none, and so does 1.) */
otp_card   otp_read_card(const uint32_t *rows, uint64_t rows_len, otp_state state);

/* Writes a card: makes the job that burns it, of version 1, with an ECC entry for each of its rows. Its length in bytes is the value, all else
   of the answer is 0, and the area's bytes past it are left; OTP_CARD_JOB_BYTES have room for every card. Any numbers may come in, and of
   version 1 the line is ignored. Nothing is burnt: run the job by otp_run_job. Once that is done and where Non-secure may read page 3, the
   card reads back the same. Numbers 0, 16, 17, and 12 for an area of fewer than 37 bytes, or 43 of version 2. A refusal leaves the area as it was. */
otp_answer otp_write_card(uint8_t *area, uint64_t area_len, uint32_t version, uint32_t width, uint32_t height, uint32_t line);

#ifdef __cplusplus
}
#endif

#endif
