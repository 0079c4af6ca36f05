"""Loaders, which trezorlib calls boot loaders. Images built there are checked here, on a card and
in the internal area, and all that the two sides tell of them must be the same; no call here writes
a loader. Then faults that neither side accepts, and the differences that docs/SPECIFICATION.md
intends, as in interop.py. trezorlib's parse does not take these images, so its structure of header
and code is used, with its hashes and its signatures. It assumes trezorlib 0.12.4. The first answer
that is not the expected one ends it with status 1."""

import sys
from dataclasses import dataclass, replace
from random import Random

from construct import ConstructError
from trezorlib import firmware

from exchange import LATEST, compare_fields, draw_code, draw_mask, same
from interop import NO_PARSE, NOW, OK, changed, refused, show
from sides import (BOOT_KEYS, BYTES, LENGTH, POLICY, SEAL, SLICE, UNSIGNED, Answer, CodeFields,
                   Differs, Image, Span, ask, check, code_there, exported, is_signed, sign, struct,
                   taken, words)

HEADER = 1_024
LONGEST_CODE = 130_048
AREA = HEADER + LONGEST_CODE
CODE_LENGTHS = 4, 8, 60, 64, 68, 128, 4_096, 130_044, LONGEST_CODE

NO_DIGEST = "no answer, header_digest fails"
BAD_SIGNATURE = "refused by its signature"
BAD_HASHES = "refused by its hashes"


@dataclass
class Fields(CodeFields):
    """What a loader is made from. The mask says which keys sign it."""

    mask: int

    def __str__(self):
        return f"loader with code of {len(self.code)}"


def draw(random, code_length):
    return Fields(**draw_code(random, code_length), mask=draw_mask(random, *POLICY))


# Here

LoaderInputs = words("time m n card_verdict internal_verdict")
Loader = struct(("area", LENGTH), ("place", Span))

CHECK = SLICE + [LoaderInputs, Answer, Image]
check_card = exported("check_card", CHECK)
check_internal = exported("check_internal", CHECK)
loader_digest = exported("loader_digest", SLICE + [Answer, BYTES])
choose_loader = exported("choose_loader", 2 * SLICE + [LoaderInputs, Answer, Loader])


def chip(data):
    """The verdict of a signature chip that is given what the archive tells for it."""
    return is_signed(ask(loader_digest, data), data[HEADER - SEAL:HEADER], POLICY[0], BOOT_KEYS)


def check_loader(call, data, time, verdict):
    return check(call, data, time, (verdict, verdict), LoaderInputs)


def choose(card, internal, time, verdicts):
    """The refusal, or the area's name and the loader."""
    answer, loader = Answer(), Loader()
    number = choose_loader(card, len(card), internal, len(internal),
                           LoaderInputs(time, *POLICY, *verdicts), answer, loader)
    if number:
        return refused(answer.number, answer.part, answer.chunk)
    name, area = {1: ("card", card), 2: ("internal", internal)}[loader.area]
    return name, taken(area, loader.place)


def on_card(data):
    return data.ljust(AREA, b"\0")


def in_internal(data):
    return data.ljust(AREA, b"\xff")


# There

def structure(fields, seal=UNSIGNED):
    """The loader as trezorlib's structure, with the code hashes that trezorlib computes."""
    hashes = firmware.calculate_code_hashes(fields.code, HEADER)
    return code_there(firmware.HeaderType.BOOTLOADER, fields, hashes, seal)


def built(fields, **changes):
    """The loader by trezorlib with these changes of the header, signed over trezorlib's digest."""
    image = structure(fields)
    image.header.update(changes)
    seal = sign(firmware.header_digest(image.header), BOOT_KEYS, fields.mask)
    image.header.sigmask, image.header.signature = seal[0], seal[1:]
    return firmware.FirmwareImage.build(image)


def validate(data):
    """What trezorlib's structure, signatures and hashes answer."""
    try:
        image = firmware.FirmwareImage.parse(data)
    except ConstructError:
        return NO_PARSE
    header = image.header
    try:
        digest = firmware.header_digest(header)
    except AttributeError:  # it builds no header whose magic it does not know
        return NO_DIGEST
    seal = bytes([header.sigmask]) + header.signature
    if not is_signed(digest, seal, POLICY[0], BOOT_KEYS):
        return BAD_SIGNATURE
    hashes = firmware.calculate_code_hashes(image.code, HEADER)
    return OK if list(header.hashes) == hashes else BAD_HASHES


# The exchange

def compare(fields, data):
    """All that the two sides tell of a loader, with its fields and with each other."""
    same("trezorlib's answer", validate(data), OK)
    image = firmware.FirmwareImage.parse(data)
    seal = data[HEADER - SEAL:HEADER]
    compare_fields("loader", structure(fields, seal), image)
    same("digest", ask(loader_digest, data), firmware.header_digest(image.header))
    same("loader built again there", firmware.FirmwareImage.build(image), data)

    accepted = OK, [0, len(fields.code)] + fields.versions()
    last_good_time = fields.expiry or LATEST
    verdict = chip(data)
    for call, area in ((check_card, on_card), (check_internal, in_internal)):
        same("check of an area", check_loader(call, area(data), last_good_time, verdict), accepted)
        same("check of the loader", check_loader(call, data, last_good_time, verdict), accepted)


def compare_choices(one, other):
    """Two loaders that do not expire, on the card and in the internal area."""
    card, internal = on_card(one), in_internal(other)
    for verdicts in ((True, True), (True, False)):
        same("choice", choose(card, internal, NOW, verdicts), ("card", one))
    same("choice", choose(card, internal, NOW, (False, True)), ("internal", other))
    same("choice", choose(card, internal, NOW, (False, False)), refused(9, 2))


def exchange(seeds):
    """Builds every loader there and compares it. Tells their number."""
    number = 0
    for seed in seeds:
        random = Random(seed)
        last = built(replace(draw(random, 4), expiry=0))
        for code_length in CODE_LENGTHS:
            fields = draw(random, code_length)
            number += 1
            try:
                compare(fields, built(fields))
                lasting = built(replace(fields, expiry=0))
                compare_choices(lasting, last)
                compare_choices(last, lasting)
            except (Differs, ConstructError) as found:
                raise Differs(f"loader {number}, {fields}: {found}") from found
    return number


# Cases: a line, the answers of both sides, and the answers that they must give

def answers(*loaders):
    """Each loader as it is, on a card and in the internal area."""
    return [(check_loader(call, data, NOW, chip(data))[0], validate(data))
            for data in loaders for call in (check_card, check_internal)]


def plain():
    """The first two keys sign, and it does not expire."""
    fields = draw(Random(0), 100)
    return replace(fields, expiry=0, mask=3, version=bytes([2, 0, 0, 0]))


def accepted_by_neither(fields):
    good = built(fields)
    mask = HEADER - SEAL
    unused_hash = structure(fields).header.hashes[:15] + [bytes(31) + b"\1"]
    return [
        ("S1, unknown magic", answers(*changed(good, 0)), refused(1, 2), NO_DIGEST),
        ("fewer than 1,024 bytes", answers(good[:1_023]), refused(2, 2), NO_PARSE),
        ("S19, sigmask with a bit at n, beside one signer and beside two",
         answers(*changed(good, mask, byte=9), *changed(good, mask, byte=11)),
         refused(8, 2), BAD_SIGNATURE),
        ("S19, sigmask with too few ones", answers(built(replace(fields, mask=1))),
         refused(8, 2), BAD_SIGNATURE),
        ("S20, header changed", answers(*changed(good, 17)), refused(9, 2), BAD_SIGNATURE),
        ("S21, code cut short", answers(good[:-1]), refused(2, 3), NO_PARSE),
        ("S22, another byte after the code", answers(good + b"\1"), refused(13, 3), NO_PARSE),
        ("S23, code changed", answers(*changed(good, len(good) - 1)), refused(14, 3, 1),
         BAD_HASHES),
        ("S23, hash of an unused chunk not zero", answers(built(fields, hashes=unused_hash)),
         refused(15, 3, 16), BAD_HASHES),
    ]


def refused_here(fields):
    good = built(fields)
    older = built(replace(fields, version=bytes([1, 0, 0, 0])), header_len=1_028)
    two_chunks = built(replace(fields, code=bytes(LONGEST_CODE + 4)))
    return [
        ("S1, TRZF without a vendor header",
         answers(built(fields, magic=firmware.HeaderType.FIRMWARE)), refused(1, 2), OK),
        ("S14, length of the header not 1,024", answers(*changed(good, 4), older),
         refused(11, 2), OK),
        ("S16, no code", answers(built(replace(fields, code=b""))), refused(12, 2), OK),
        ("S16, code length not a multiple of 4", answers(built(replace(fields, code=bytes(6)))),
         refused(12, 2), OK),
        ("S16, code in chunk 2", answers(two_chunks), refused(12, 2), OK),
        ("S17, bytes 24 to 31 not zero", answers(*changed(good, 24, 31)), refused(6, 2), OK),
        ("S17, bytes 544 to 738 not zero, which hold older signatures there",
         answers(*changed(good, 544, 738)), refused(6, 2), OK),
        ("S17, bytes 739 to 958 not zero", answers(*changed(good, 739, 958)), refused(6, 2), OK),
        ("S18, expired", answers(built(replace(fields, expiry=1))), refused(7, 2), OK),
        ("S19, sigmask with too many ones", answers(built(replace(fields, mask=7))),
         refused(8, 2), OK),
    ]


def refused_there(fields):
    """An area is longer than its loader, and the verdicts on signatures are inputs here."""
    good = built(fields)
    no_signature = good[:HEADER - 64] + bytes(64) + good[HEADER:]
    areas = (check_card, on_card(good)), (check_internal, in_internal(good))
    told = [[(check_loader(call, area, NOW, chip(area))[0], validate(area))]
            for call, area in areas]
    unsigned = [(check_loader(call, no_signature, NOW, True)[0], validate(no_signature))
                for call in (check_card, check_internal)]
    return [
        ("S22, zeros after the code on a card", told[0], OK, NO_PARSE),
        ("S22, erased bytes after the code in the internal area", told[1], OK, NO_PARSE),
        ("S20, a signature of zeros and the verdict yes", unsigned, OK, BAD_SIGNATURE),
    ]


def main():
    number = exchange(seeds=(5, 6, 7, 8))
    fields = plain()
    print("Loaders accepted by neither:")
    faults = show(accepted_by_neither(fields))
    print("Different, as the specification intends:")
    differences = show(refused_here(fields) + refused_there(fields))
    print(f"interop: {number} loaders built there and accepted here, {faults} faults accepted by"
          f" neither, {differences} differences as intended")


if __name__ == "__main__":
    try:
        main()
    except (Differs, ConstructError) as found:
        sys.exit(" ".join(f"interop: {found}".split()))
