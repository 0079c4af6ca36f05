"""The exchange of images, then faults that neither side accepts, and the differences that
docs/SPECIFICATION.md intends: one line for each, with the step, the answer of the file check
here, and the answer of trezorlib's parse and validate there. It assumes trezorlib 0.12.4. The first
answer that is not the expected one ends it with status 1."""

import sys
from dataclasses import replace
from itertools import count
from random import Random

from construct import ConstructError
from trezorlib import firmware

from exchange import (GRAY, LARGEST, PICTURES, built_there, draw, draw_picture, exchange, in_slot,
                      same, written_here)
from sides import (FIRMWARE_HEADER, SEAL, Differs, build_signed, check, check_file, check_slot,
                   chip, make_key, structure, trust, trust_there, validate, write, write_signed)

NOW = 2

OK = "accepted"
NO_PARSE = "refused by parse"
NO_ANSWER = "no answer, validate fails"
BAD_VENDOR = "refused by validate: Invalid vendor header signature."
BAD_FIRMWARE = "refused by validate: Invalid firmware signature."
BAD_DATA = "refused by validate: Invalid firmware data."


def refused(number, part, chunk=0):
    return f"refused {number} part {part} chunk {chunk}"


# A case is a line, the answers of both sides to one or more files, and the answers that they must
# give.

def answers(*files):
    return [(check(check_file, file, NOW, chip(file))[0], validate(file)) for file in files]


def changed(file, *places, byte=1):
    """For each place, the file with this byte there."""
    return [file[:at] + bytes([byte]) + file[at + 1:] for at in places]


def plain():
    """Five keys, of which the first two sign, no expiry, and a vendor header of 512 bytes."""
    fields = draw(Random(0), 5, b"Acme", PICTURES[0])
    return replace(fields, vendor_expiry=0, expiry=0, m=2, vendor_mask=3, firmware_mask=3,
                   version=bytes([2, 0, 0, 0]), vtrust=0xFFFF)


def built(fields, **changes):
    return built_there(replace(fields, **changes))


def built_with(fields, **changes):
    """Built there with these changes of the firmware header."""
    fw = structure(fields)
    fw.image.header.update(changes)
    return build_signed(fields, fw)


def written(fields, **changes):
    fields = replace(fields, **changes)
    return write_signed(fields, fields.picture)


def accepted_by_neither(fields):
    good, v = built_there(fields), fields.v
    mask, firmware_mask = v - SEAL, v + FIRMWARE_HEADER - SEAL
    unused_hash = structure(fields).image.header.hashes[:15] + [bytes(31) + b"\1"]
    return [
        ("S1, other vendor magic", answers(*changed(good, 0)), refused(1, 1), NO_PARSE),
        ("S3, fewer than 512 bytes", answers(good[:511]), refused(2, 1), NO_PARSE),
        ("S4, v not a multiple of 512", answers(*changed(good, 4)), refused(3, 1), NO_PARSE),
        ("S6, 0 of 5 keys", answers(built(fields, m=0)), refused(4, 1), BAD_FIRMWARE),
        ("S6, 6 of 5 keys", answers(built(fields, m=6)), refused(4, 1), BAD_FIRMWARE),
        ("S7, string too long", answers(*changed(good, 192, byte=255)), refused(5, 1), NO_PARSE),
        ("S10, vendor sigmask with a bit at n, beside one signer and beside two",
         answers(*changed(good, mask, byte=9), *changed(good, mask, byte=11)),
         refused(8, 1), BAD_VENDOR),
        ("S10, vendor sigmask with too few ones", answers(built(fields, vendor_mask=1)),
         refused(8, 1), BAD_VENDOR),
        ("S11, vendor header changed", answers(*changed(good, 33)), refused(9, 1), BAD_VENDOR),
        ("S12, firmware header cut short", answers(good[:v + 1_023]), refused(2, 2), NO_PARSE),
        ("S13, unknown firmware magic", answers(*changed(good, v)), refused(10, 2), NO_ANSWER),
        ("S19, firmware sigmask with a bit at n, beside one signer and beside two",
         answers(*changed(good, firmware_mask, byte=33), *changed(good, firmware_mask, byte=35)),
         refused(8, 2), BAD_FIRMWARE),
        ("S19, firmware sigmask with too few ones", answers(built(fields, firmware_mask=1)),
         refused(8, 2), BAD_FIRMWARE),
        ("S20, firmware header changed", answers(*changed(good, v + 17)), refused(9, 2),
         BAD_FIRMWARE),
        ("S21, code cut short", answers(good[:-1]), refused(2, 3), NO_PARSE),
        ("S22, bytes after the code in a file", answers(good + b"\xff"), refused(13, 3), NO_PARSE),
        ("S23, code changed", answers(*changed(good, len(good) - 1)), refused(14, 3, 1), BAD_DATA),
        ("S23, hash of an unused chunk not zero", answers(built_with(fields, hashes=unused_hash)),
         refused(15, 3, 16), BAD_DATA),
    ]


def refused_here(fields):
    good, v = built_there(fields), fields.v
    nine = fields.keys + [make_key(bytes([i]) * 32) for i in range(4, 8)]
    loader = built_with(fields, magic=firmware.HeaderType.BOOTLOADER)
    older = built_with(replace(fields, version=bytes([1, 0, 0, 0])), header_len=1_028)
    too_long = built(fields, code=bytes(LARGEST - FIRMWARE_HEADER - v + 4))
    return [
        ("S4, v of 66,048", answers(built(fields, v=66_048)), refused(3, 1), OK),
        ("S6, nine keys", answers(built(fields, keys=nine)), refused(4, 1), OK),
        ("S8, bytes 18 to 31 of the vendor header not zero", answers(*changed(good, 18, 31)),
         refused(6, 1), OK),
        ("S8, bytes between string and picture not zero", answers(*changed(good, 197, 199)),
         refused(6, 1), OK),
        ("S9, vendor header expired", answers(built(fields, vendor_expiry=1)), refused(7, 1), OK),
        ("S10, vendor sigmask with too many ones", answers(built(fields, vendor_mask=7)),
         refused(8, 1), OK),
        ("S13, TRZB after a vendor header", answers(loader), refused(10, 2), OK),
        ("S14, length of the firmware header not 1,024", answers(*changed(good, v + 4), older),
         refused(11, 2), OK),
        ("S16, no code", answers(built(fields, code=b"")), refused(12, 2), OK),
        ("S16, code length not a multiple of 4", answers(built(fields, code=bytes(6))),
         refused(12, 2), OK),
        ("S16, code past chunk 16, which has no hash there",
         answers(too_long, *changed(too_long, LARGEST)), refused(12, 2), OK),
        ("S17, bytes 24 to 31 of the firmware header not zero",
         answers(*changed(good, v + 24, v + 31)), refused(6, 2), OK),
        ("S17, bytes 544 to 738 not zero, which hold older signatures there",
         answers(*changed(good, v + 544, v + 738)), refused(6, 2), OK),
        ("S17, bytes 739 to 958 not zero", answers(*changed(good, v + 739, v + 958)),
         refused(6, 2), OK),
        ("S18, firmware header expired", answers(built(fields, expiry=1)),
         refused(7, 2), OK),
        ("S19, firmware sigmask with too many ones", answers(built(fields, firmware_mask=7)),
         refused(8, 2), OK),
    ]


def refused_there(fields):
    """String and picture area are bytes of any kind here, and a slot is longer than its image."""
    slot = in_slot(built_there(fields))
    return [
        ("string that is not UTF-8", answers(written(fields, string=b"\xff")), OK, NO_PARSE),
        ("picture that is not TOIF, or none",
         answers(written(fields, picture=b"opaque"), written(fields, picture=b"")), OK, NO_PARSE),
        ("TOIF picture of unknown format",
         answers(written(fields, picture=b"TOIx" + fields.picture[4:])), OK, NO_ANSWER),
        ("picture that ends at the sigmask", answers(written(fields, picture=longest(fields))),
         OK, NO_PARSE),
        ("S22, erased bytes after the code in a slot",
         [(check(check_slot, slot, NOW, chip(slot))[0], validate(slot))], OK, NO_PARSE),
    ]


def longest(fields):
    """A TOIF picture that fills the picture area."""
    room = fields.v - SEAL - fields.picture_start()
    pictures = (draw_picture(Random(0), GRAY, 2, height) for height in count(1))
    return next(picture for picture in pictures if len(picture) == room)


def read_differently(fields):
    """Bytes after the picture are part of the digest here, and taken as zero there. The verdicts on
    signatures are inputs here. Bit 7 of vtrust is the pairing secret here, and reserved there."""
    area = fields.picture + b"\1"
    no_signature = write(fields, fields.picture, b"\3" + bytes(64), b"\3" + bytes(64))
    secret = [built(fields, vtrust=vtrust) for vtrust in (0xFFFF, 0xFF7F)]
    return [
        ("bytes after the picture, signed here", answers(written(fields, picture=area)),
         OK, BAD_VENDOR),
        ("bytes after the picture, signed there",
         answers(*changed(built_there(fields), fields.v - SEAL - 1)), refused(9, 1), OK),
        ("S11 and S20, signatures of zeros and the verdicts yes",
         [(check(check_file, no_signature, NOW, (True, True))[0], validate(no_signature))],
         OK, BAD_VENDOR),
        ("bit 7 of vtrust", [(is_read(map(trust, secret)), is_read(map(trust_there, secret)))],
         "read", "not read"),
    ]


def is_read(readings):
    one, other = readings
    return "not read" if one == other else "read"


def show(cases):
    """Prints the cases and tells their number."""
    for what, told, here, there in cases:
        for answer_here, answer_there in told:
            same(f"{what}, here", answer_here, here)
            same(f"{what}, there", answer_there, there)
        print(f"  {what}: here {here}, there {there}")
    return len(cases)


def main():
    there = exchange(built_there, seeds=(1, 2))
    here = exchange(written_here, seeds=(3, 4))
    fields = plain()
    print("Here is the archive, there is trezorlib. Accepted by neither:")
    faults = show(accepted_by_neither(fields))
    print("Different, as the specification intends:")
    differences = show(refused_here(fields) + refused_there(fields) + read_differently(fields))
    print(f"interop: {there} images built there and accepted here, {here} written here and parsed"
          f" there, {faults} faults accepted by neither, {differences} differences as intended")


if __name__ == "__main__":
    try:
        main()
    except (Differs, ConstructError) as found:
        sys.exit(" ".join(f"interop: {found}".split()))
