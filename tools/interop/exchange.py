"""Images built by trezorlib are checked here, and images written here are parsed there. They are
drawn from a seeded generator: each number of keys, strings and pictures of several lengths, code
that ends at the edges of chunks. Each is signed over the digests of the side that made it, and all
that the two sides tell of it must be the same."""

import zlib
from itertools import count
from random import Random

from construct import ConstructError, Container
from trezorlib import firmware, toif

from sides import (FIRMWARE_HEADER, POLICY, SEAL, Differs, Fields, ask, build_signed, check,
                   check_file, check_slot, chip, find, find_firmware_signature,
                   find_vendor_signature, firmware_digest, make_key, parts, seals, structure,
                   trust, trust_there, validate, vendor_digest, write, write_signed)

LARGEST = 2_097_152
CHUNK = 131_072
LATEST = 2**32 - 1

GRAY, COLOR = firmware.ToifMode.grayscale, firmware.ToifMode.full_color
PICTURES = (GRAY, 2, 1), (GRAY, 24, 24), (COLOR, 120, 120), (COLOR, 179, 180)
STRING_LENGTHS = 0, 3, 4, 155, 255
ENDS = (CHUNK - 4, CHUNK, CHUNK + 4, 2 * CHUNK - 4, 2 * CHUNK, 2 * CHUNK + 4,
        LARGEST - CHUNK, LARGEST - CHUNK + 4, LARGEST - 4, LARGEST)


# Drawing and making

def draw_picture(random, mode, width, height):
    """A TOIF picture of random pixels."""
    pixels = random.randbytes(width * height * 2 if mode is COLOR else width * height // 2)
    deflate = zlib.compressobj(level=9, wbits=-10)
    data = deflate.compress(pixels) + deflate.flush()
    return toif.Toif(mode, (width, height), data).to_bytes()


def draw_ascii(random, length):
    return bytes(random.choices(range(32, 127), k=length))


def draw_expiry(random):
    return random.choice((0, random.randint(1, LATEST)))


def draw_version(random):
    """From major version 2 up, trezorlib sets the length of the firmware header itself."""
    return bytes([random.randrange(4)]) + random.randbytes(3)


def draw_mask(random, m, n):
    signers = random.sample(range(n), m)
    return sum(1 << signer for signer in signers)


def draw_code(random, code_length):
    """Those of CodeFields."""
    return {"expiry": draw_expiry(random), "version": draw_version(random),
            "fix": random.randbytes(4), "code": random.randbytes(code_length)}


def draw(random, n, string, picture, v=0, end=0):
    """The fields of an image. Without v it is the least, without an end the code is short."""
    m = random.randint(1, n)
    fields = Fields(
        v=v, vendor_expiry=draw_expiry(random), vendor_version=random.randbytes(2), m=m,
        keys=[make_key(random.randbytes(32)) for _ in range(n)], vtrust=random.getrandbits(16),
        string=string, picture=draw_picture(random, *picture),
        vendor_mask=draw_mask(random, *POLICY), expiry=draw_expiry(random),
        version=draw_version(random), fix=random.randbytes(4), code=b"",
        firmware_mask=draw_mask(random, m, n))
    # trezorlib wants a byte between the picture and the sigmask.
    fields.v = v or (fields.picture_end() + SEAL) // 512 * 512 + 512
    code_length = end - FIRMWARE_HEADER - fields.v if end else 4 * random.randint(1, 500)
    fields.code = random.randbytes(code_length)
    return fields


def draw_all(random):
    for n in range(1, 9):
        for length in STRING_LENGTHS:
            for picture in PICTURES:
                yield draw(random, n, draw_ascii(random, length), picture)
    for v in (512, 1_024, 65_536):
        for end in ENDS:
            yield draw(random, random.randint(1, 8), draw_ascii(random, 20), PICTURES[0], v, end)
    yield draw(random, 2, "Žluťoučký kůň".encode(), PICTURES[1])


def built_there(fields):
    return build_signed(fields, structure(fields))


def written_here(fields):
    """Zeros after the picture make v the least length that the writer finds."""
    zeros = max(0, fields.v - 511 - SEAL - fields.picture_end())
    return write_signed(fields, fields.picture + bytes(zeros))


# Comparing

def same(what, one, other):
    if one != other:
        raise Differs(f"{what}: {difference(one, other)}")


def difference(one, other):
    if not isinstance(one, bytes) or not isinstance(other, bytes):
        return f"{one!s:.100} instead of {other!s:.100}"
    if len(one) != len(other):
        return f"{len(one)} bytes instead of {len(other)}"
    at = next(at for at in count() if one[at] != other[at])
    return f"byte {at} is {one[at]} instead of {other[at]}"


def compare(fields, file):
    """All that the two sides tell of an image, with its fields and with each other."""
    same("trezorlib's answer", validate(file), "accepted")
    version, fw = firmware.parse(file)
    compare_fields("image", structure(fields, *seals(file)), fw)
    same("vendor digest", ask(vendor_digest, file), firmware.header_digest(fw.vendor_header))
    same("firmware digest", ask(firmware_digest, file), firmware.digest(version, fw))
    compare_signatures(fields, file)
    compare_answers(fields, file)
    compare_parts(fields, file)
    # The fifth word here, the pairing secret, has no name there.
    same("trust", trust(file)[:4], trust_there(file))
    same("image built again there", firmware.VendorFirmware.build(fw), file)
    same("image written again here", write(fields, parts(file)[1], *seals(file)), file)


def compare_fields(path, expected, parsed):
    for name, value in expected.items():
        if isinstance(value, Container):
            compare_fields(f"{path}.{name}", value, parsed[name])
        elif name != "_io":
            same(f"{path}.{name} there", parsed[name], value)


def compare_signatures(fields, file):
    vendor_seal, firmware_seal = seals(file)
    same("vendor signature here", find(find_vendor_signature, file), (vendor_seal, 0, 0, []))
    same("firmware signature here", find(find_firmware_signature, file),
         (firmware_seal, fields.m, len(fields.keys), fields.keys))


def compare_answers(fields, file):
    accepted = "accepted", [fields.v, len(fields.code)] + fields.versions()
    last_good_time = min(fields.vendor_expiry or LATEST, fields.expiry or LATEST)
    verdicts = chip(file)
    same("file check", check(check_file, file, last_good_time, verdicts), accepted)
    same("slot check", check(check_slot, in_slot(file), last_good_time, verdicts), accepted)


def in_slot(file):
    return file.ljust(LARGEST, b"\xff")


def compare_parts(fields, file):
    string, area, code = parts(file)
    area_length = fields.v - SEAL - fields.picture_start()
    same("string here", string, fields.string)
    same("picture area here", area, fields.picture.ljust(area_length, b"\0"))
    same("code here", code, fields.code)


def exchange(make, seeds):
    """Makes every image in this way and compares it. Tells their number."""
    number = 0
    for seed in seeds:
        for fields in draw_all(Random(seed)):
            number += 1
            try:
                compare(fields, make(fields))
            except (Differs, ConstructError) as found:
                raise Differs(f"image {number}, {make.__name__}, {fields}: {found}") from found
    return number
