#!/usr/bin/env python3
"""Makes the example images and jobs, so that a reader can see what they hold: beside this file, or in the folder that is given.

An image is 4,096 rows, each a 32-bit number, low byte first. Document 01 says what the rows and the job bytes mean.
Nothing here uses the proved library: the code of a value is worked out anew from document 01's masks.
"""
import sys
from pathlib import Path

FOLDER = Path(sys.argv[1]) if len(sys.argv) > 1 else Path(__file__).resolve().parent
MASKS = (0x00AD5B, 0x00366D, 0x00C78E, 0x0007F0, 0x00F800, 0x1FFFFF)

# Key 1 and key 2, as --key takes them.
KEY_1 = "000102030405060708090a0b0c0d0e0f"
KEY_2 = "f0e1d2c3b4a5968778695a4b3c2d1e0f"

# A splash card, from row 0x0c0 on: the two values of its mark, its version, a width and a height. Version 2 adds the bytes in a line.
CARD = (0x5053, 0x004C, 1, 320, 240)
LINED_CARD = (0x5053, 0x004C, 2, 300, 200, 512)


def plain(value):
    """The plain row of a value: its code. The last check bit covers the first five."""
    bits = value
    for i, mask in enumerate(MASKS):
        bits |= (bin(bits & mask).count("1") & 1) << (16 + i)
    return bits


def inverted(value):
    """The inverted row of a value: all 24 bits of the plain row flipped."""
    return plain(value) ^ 0xFFFFFF


def lock(rows, page, secure=0, nonsecure=0, bootloader=0, write_key=0, read_key=0, no_key=0):
    """Burns the lock word of a page: each byte three times."""
    rows[0xF80 + 2 * page] |= (write_key | read_key << 3 | no_key << 6) * 0x010101
    rows[0xF81 + 2 * page] |= (secure | nonsecure << 2 | bootloader << 4) * 0x010101


def key(rows, k, digits):
    """Burns key k: eight ECC rows, low 16 bits first, and its valid flag, three times."""
    data = bytes.fromhex(digits)
    for i in range(8):
        rows[0xF48 + 8 * (k - 1) + i] = plain(data[2 * i] | data[2 * i + 1] << 8)
    rows[0xF78 + k] = 0x010101


def blank():
    return [0] * 4096


def locked():
    """Locks of every level, keys, no-key states. Each locked page has one value, in its first row."""
    rows = blank()
    for page in (1, 2, 4, 5, 6, 7, 8, 9, 10, 11, 12):
        rows[64 * page] = plain(0x1000 + page)
    lock(rows, 1, secure=1, nonsecure=1)
    lock(rows, 2, nonsecure=1)
    lock(rows, 4, nonsecure=2)
    lock(rows, 5, secure=1, nonsecure=2)
    lock(rows, 6, secure=2, nonsecure=2)
    lock(rows, 7, write_key=1)
    lock(rows, 8, write_key=1, read_key=2, no_key=1)
    lock(rows, 9, read_key=2, no_key=1)
    lock(rows, 10, write_key=7)
    # A field of 3 is level 2. Of page 12's lock rows one copy in three is worn, and the vote mends it.
    lock(rows, 11, secure=3, nonsecure=3)
    lock(rows, 12, secure=1, nonsecure=1, write_key=1)
    rows[0xF80 + 2 * 12] &= 0xFFFF00
    rows[0xF81 + 2 * 12] |= 0x020000
    key(rows, 1, KEY_1)
    key(rows, 2, KEY_2)
    # One of three copies of key 3's valid flag: not valid.
    rows[0xF78 + 3] = 0x000001
    lock(rows, 61, nonsecure=2)
    return rows


def loader():
    """A board whose USB loader has rights of its own. Each page that is named has one value, in its first row."""
    rows = blank()
    for page in range(1, 10):
        rows[64 * page] = plain(0x1000 + page)
    lock(rows, 1, bootloader=1)
    lock(rows, 2, bootloader=2)
    # The bootloader runs as Secure: what Secure may not do, its own level of 0 does not give it.
    lock(rows, 3, secure=1)
    lock(rows, 4, secure=2)
    lock(rows, 5, nonsecure=2)
    lock(rows, 6, nonsecure=2, bootloader=2)
    # A field of 3 is level 2. Of page 8's level one copy in three is lost, of page 9's one alone stands: 1, and 0.
    lock(rows, 7, secure=1, nonsecure=1, bootloader=3)
    lock(rows, 8, bootloader=1)
    rows[0xF81 + 2 * 8] &= 0xFFFF00
    rows[0xF81 + 2 * 9] = 0x002000
    return rows


def worn():
    """A card that was burnt badly and has aged, and flags of which some copies are worn."""
    rows = blank()
    rows[0x0C0] = plain(0x5053)
    rows[0x0C1] = plain(0x004C) & ~(1 << 3)  # repaired bit 3
    rows[0x0C2] = inverted(1) & ~(1 << 18)  # repaired bit 18
    rows[0x0C3] = 0x000003  # no value within one bit; of 320 the inverted row fits, and of 1 neither
    rows[0x0C5] = plain(240) | 1 << 22  # flag worn, and neither polarity of 240 fits
    rows[0x0C6] = inverted(240) & ~(1 << 23)  # lost half of its mark: refused, never misread
    # Critical flags: bit 0 stands in all eight rows, bit 1 in three, bit 2 in two.
    for i in range(8):
        rows[0x038 + i] = 1 | (i < 3) << 1 | (i < 2) << 2
    # Three rows of which two agree on each bit.
    rows[0x100:0x103] = [0x00FF00, 0x00F0F0, 0x000FF0]
    return rows


def carded(card):
    """A blank board on which a card was burnt."""
    rows = blank()
    rows[0x0C0 : 0x0C0 + len(card)] = [plain(value) for value in card]
    return rows


def scrap():
    """The card, of which two rows came out otherwise."""
    rows = carded(CARD)
    rows[0x0C3] &= ~(1 << 8)  # a pulse that did not take
    rows[0x0C4] |= 1 << 0  # a bit too many
    return rows


def story():
    """The card, with its width burnt inverted and then plain on top: all ones. Inverted, they are a width of 0."""
    rows = carded(CARD)
    rows[0x0C3] = inverted(320) | plain(320)
    return rows


def lines():
    """A card of version 2, which has aged: each of its rows has one wrong bit, a 0 that was a 1 or a 1 that was a 0."""
    rows = carded(LINED_CARD)
    for i, bit in enumerate((0, 3, 1, 21, 8, 9)):
        rows[0x0C0 + i] ^= 1 << bit
    return rows


def image(name, rows):
    (FOLDER / name).write_bytes(b"".join(row.to_bytes(4, "little") for row in rows))


def job(name, entries, version=1):
    """Three bytes, the version, the count, and six bytes an entry: row, kind (0 is ECC, 1 is raw), value."""
    body = b"".join(
        row.to_bytes(2, "little") + bytes([kind]) + value.to_bytes(3, "little") for row, kind, value in entries
    )
    (FOLDER / name).write_bytes(b"OTJ" + version.to_bytes(2, "little") + len(entries).to_bytes(2, "little") + body)


ECC, RAW = 0, 1

image("blank.img", blank())
image("locked.img", locked())
image("loader.img", loader())
image("worn.img", worn())
image("scrap.img", scrap())
image("story.img", story())
image("lines.img", lines())

# Document 01's whole file for one entry.
job("one.job", [(0x0C0, ECC, 1)])
# The card, as card.txt has it.
job("card.job", [(0x0C0 + i, ECC, v) for i, v in enumerate(CARD)])
# Its last entry is refused with 9 on worn.img.
job("clash.job", [(0x0C0, ECC, 0x5053), (0x0C1, ECC, 0x004C), (0x0C2, ECC, 1), (0x0C3, ECC, 1)])
# Its second entry is refused with 7 on locked.img, unless key 1 is entered. Raw entries burn flags.
job("keyed.job", [(0x038, RAW, 0x000005), (0x1C1, ECC, 0x2026), (0x1C2, RAW, 0x010101)])
# Version 2, as lock.txt and seal.txt have them: a value, and then the lock of its page. The first locks Non-secure alone, and completes after
# any cut. The second locks Secure too, and so its own lock word: cut once two copies stand, it is refused with 7.
job("lock.job", [(0x0C0, ECC, 1), (0xF87, RAW, 0x040404)], version=2)
job("seal.job", [(0x0C0, ECC, 1), (0xF87, RAW, 0x010101)], version=2)
