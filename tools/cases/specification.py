"""The check, the digest questions, the trust reading, the writers, the installer, the loader and the
older model, worked out from docs/SPECIFICATION.md alone and from none of the Rattle code. Short
rather than fast; digests are hashlib's."""

from hashlib import blake2s, sha256
from typing import NamedTuple

ERASED = b"\xff"
PAGE = 4_096
CHUNK = 131_072
LARGEST = 2_097_152


def digest(data):
    return blake2s(data).digest()


def older_digest(data):
    return sha256(data).digest()


def number_at(data, at):
    return int.from_bytes(data[at:at + 4], "little")


def bytes_of(number, size=4):
    return number.to_bytes(size, "little")


# The layout


def picture_start(n, string_length):
    end = 32 + 32 * n + 1 + string_length
    return end + -end % 4


def first_room(v):
    """What chunk 1 has room for behind a vendor header of v bytes."""
    return CHUNK - 1_024 - v


def chunks(first, code):
    """The sixteen chunks of the code. The first has room for so many bytes."""
    starts = [0] + [first + CHUNK * k for k in range(15)]
    return [code[start:start + (CHUNK if start else first)] for start in starts]


def hashes(first, code, digest=digest):
    return [digest(chunk) if chunk else bytes(32) for chunk in chunks(first, code)]


# The check. A step gives the refusal where it fails: number, part and chunk.


class Refusal(NamedTuple):
    number: int
    part: int = 0
    chunk: int = 0


class Accepted(NamedTuple):
    v: int
    codelen: int
    version: bytes
    fix: bytes


class Inputs(NamedTuple):
    time: int
    m: int
    n: int
    vendor: bool
    firmware: bool


def bad_keys(m, n):
    return not 1 <= m <= n <= 8


def bad_length(v):
    return v % 512 != 0 or not 512 <= v <= 65_536


def longest_code(v):
    return LARGEST - 1_024 - v


def bad_code_length(most, length):
    return length == 0 or length % 4 != 0 or length > most


def vendor_shape(data):
    """S3 to S8."""
    if len(data) < 512:
        return Refusal(2, 1)
    v = number_at(data, 4)
    if bad_length(v):
        return Refusal(3, 1)
    if len(data) < v:
        return Refusal(2, 1)
    n = data[15]
    if bad_keys(data[14], n):
        return Refusal(4, 1)
    length = data[32 + 32 * n]
    start = picture_start(n, length)
    if start + 65 > v:
        return Refusal(5, 1)
    if any(data[18:32]) or any(data[33 + 32 * n + length:start]):
        return Refusal(6, 1)
    return None


def fields_shape(header, bad_length, zeros):
    """S14, S16 and S17: whether codelen is bad, and which bytes behind the hashes must be zero."""
    if number_at(header, 4) != 1_024:
        return Refusal(11, 2)
    if bad_length:
        return Refusal(12, 2)
    if any(header[24:32]) or any(header[zeros]):
        return Refusal(6, 2)
    return None


def firmware_shape(data, v):
    """S12 to S17. S15 cannot fail after S4."""
    header = data[v:v + 1_024]
    if len(header) < 1_024:
        return Refusal(2, 2)
    if header[:4] != b"TRZF":
        return Refusal(10, 2)
    bad_length = bad_code_length(longest_code(v), number_at(header, 12))
    return fields_shape(header, bad_length, slice(544, 959))


def signed(expiry, time, mask, m, n, verdict, part):
    """S9 to S11, or S18 to S20."""
    if expiry != 0 and time > expiry:
        return Refusal(7, part)
    if mask >> n != 0 or mask.bit_count() != m:
        return Refusal(8, part)
    if not verdict:
        return Refusal(9, part)
    return None


def headers(data, given):
    """S1 to S20."""
    if data[:4] != b"TRZV":
        return Refusal(1, 1)
    if bad_keys(given.m, given.n):
        return Refusal(16, 0)
    v = number_at(data, 4)
    return (vendor_shape(data)
            or signed(number_at(data, 8), given.time, data[v - 65], given.m, given.n,
                      given.vendor, 1)
            or firmware_shape(data, v)
            or signed(number_at(data, v + 8), given.time, data[v + 959], data[14], data[15],
                      given.firmware, 2))


def check_code(data, at, later, first, digest=digest):
    """S21 to S23 on the code behind a header at this place: what may follow it, the room of chunk 1
    and the hash."""
    header = data[at:at + 1_024]
    end = at + 1_024 + number_at(header, 12)
    if len(data) < end:
        return Refusal(2, 3)
    if data[end:].strip(later):
        return Refusal(13, 3)
    code = data[at + 1_024:end]
    for k, (chunk, right) in enumerate(zip(chunks(first, code), hashes(first, code, digest))):
        if header[32 + 32 * k:64 + 32 * k] != right:
            return Refusal(14 if chunk else 15, 3, k + 1)
    return None


def accepted(v, header):
    return Accepted(v, number_at(header, 12), header[16:20], header[20:24])


def check(data, given, slot):
    """S1 to S23 on the bytes of a file or of a slot."""
    v = number_at(data, 4)
    return (headers(data, given) or check_code(data, v, ERASED if slot else b"", first_room(v))
            or accepted(v, data[v:]))


def parts(data, answer):
    """String, picture area and code, empty after a refusal."""
    if isinstance(answer, Refusal):
        return b"", b"", b""
    n, v, code = data[15], answer.v, answer.v + 1_024
    string = 32 + 32 * n + 1
    length = data[string - 1]
    return (data[string:string + length], data[picture_start(n, length):v - 65],
            data[code:code + answer.codelen])


def questions(data):
    """The two digests to be signed, or the refusals in their place."""
    refusal = Refusal(1, 1) if data[:4] != b"TRZV" else vendor_shape(data)
    if refusal:
        return refusal, refusal
    v = number_at(data, 4)
    vendor = digest(data[:v - 65] + bytes(65))
    return vendor, firmware_shape(data, v) or digest(data[v:v + 959] + bytes(65))


def trust(bits):
    """The seconds to wait, and for each feature whether it is active: where its bit is unset."""
    unset = [not bits >> k & 1 for k in range(8)]
    return {"seconds": sum(1 << k for k in range(4) if unset[k]), "red": unset[4],
            "click": unset[5], "string": unset[6], "secret": unset[7]}


# The writers. Each gives the header, or the number of its refusal.


class Numbers(NamedTuple):
    """What a header has besides what is lent, of both headers."""
    expiry: int
    versions: bytes
    mask: int
    sig: bytes


def vendor_header(numbers, m, n, trust_bits, keys, string, picture, room):
    if bad_keys(m, n):
        return 4
    if len(keys) != 32 * n or len(string) > 255:
        return 20
    start = picture_start(n, len(string))
    v = start + len(picture) + 65
    v += -v % 512
    if v > 65_536:
        return 3
    if room < v:
        return 21
    head = (b"TRZV" + bytes_of(v) + bytes_of(numbers.expiry) + numbers.versions + bytes([m, n])
            + bytes_of(trust_bits, 2))
    front = (head.ljust(32, b"\0") + keys + bytes([len(string)]) + string).ljust(start, b"\0")
    return (front + picture).ljust(v - 65, b"\0") + bytes([numbers.mask]) + numbers.sig


def firmware_header(numbers, v, code, room):
    if bad_length(v):
        return 3
    if bad_code_length(longest_code(v), len(code)):
        return 12
    if room < 1_024:
        return 21
    head = (b"TRZF" + bytes_of(1_024) + bytes_of(numbers.expiry) + bytes_of(len(code))
            + numbers.versions)
    head = head.ljust(32, b"\0") + b"".join(hashes(first_room(v), code))
    return head.ljust(959, b"\0") + bytes([numbers.mask]) + numbers.sig


# The installer. A call gives the record and what it answers, and may change the slot.


class Record(NamedTuple):
    phase: int = 0
    slot: int = 0
    file: int = 0
    pages: int = 0
    taken: int = 0
    operations: int = 0
    first: bytes = bytes(4)
    held: bytes = bytes(4)


def takes_slot(length):
    return length % PAGE == 0 and PAGE <= length <= LARGEST


def takes_file(slot, length):
    return length % 4 == 0 and 1_540 <= length <= slot


def is_consistent(record, slot):
    """Whether a record is open, and consistent with this slot."""
    phase, length, file, pages, taken, operations, _, _ = record
    return (phase == 1 and length == len(slot) and takes_slot(length) and takes_file(length, file)
            and pages <= length // PAGE and (taken == 0 or pages == length // PAGE)
            and taken <= file and (operations == 1 + pages + max(0, taken // 4 - 1)
                                   or operations == pages == 0))


def is_full(record, slot):
    return (is_consistent(record, slot) and record.pages == record.slot // PAGE
            and record.taken == record.file)


def given_file(record, slot):
    return record.first + bytes(slot[4:record.file])


def begin(slot, file):
    if not takes_slot(slot):
        return Record(), 22
    if not takes_file(slot, file):
        return Record(), 18
    return Record(phase=1, slot=slot, file=file), "begun"


def erase(record, slot):
    if not is_consistent(record, slot) or record.pages == record.slot // PAGE:
        return record, 19
    after = record._replace(operations=record.operations + 1)
    if record.operations == 0:
        slot[:4] = bytes(4)
        return after, "erased"
    slot[PAGE * record.pages:PAGE * (record.pages + 1)] = ERASED * PAGE
    return after._replace(pages=record.pages + 1), "erased"


def fill(record, piece, slot):
    if not is_consistent(record, slot) or record.pages < record.slot // PAGE:
        return record, 19
    phase, length, file, pages, taken, operations, first, held = record
    got = taken % 4
    count = min(4 - got, len(piece), file - taken)
    word = held[:got] + piece[:count] + held[got + count:]
    if got + count == 4 and taken < 4:
        first = word
    elif got + count == 4:
        at = taken - got
        if slot[at:at + 4] != ERASED * 4:
            return record, 23
        slot[at:at + 4] = word
        operations += 1
    after = Record(phase, length, file, pages, taken + count, operations, first, word)
    return after, f"took {count}"


def ask(record, slot):
    if not is_full(record, slot):
        return Refusal(19), Refusal(19)
    return questions(given_file(record, slot))


def close(record, given, slot):
    if not is_full(record, slot):
        return record, 19
    if slot[:4] != ERASED * 4:
        return record, 23
    answer = check(given_file(record, slot), given, slot=False)
    if isinstance(answer, Refusal):
        return record._replace(phase=0), answer
    slot[:4] = record.first
    return record._replace(phase=0, operations=record.operations + 1), "Done"


# The loader: a header at 0, laid out like the firmware header, and code, all of it in chunk 1.


class AreaInputs(NamedTuple):
    time: int
    m: int
    n: int
    card: bool
    internal: bool


LONGEST_LOADER = 130_048


def loader_shape(data):
    """Fewer than 1,024 bytes, S14, S16 and S17."""
    if len(data) < 1_024:
        return Refusal(2, 2)
    bad_length = bad_code_length(LONGEST_LOADER, number_at(data, 12))
    return fields_shape(data, bad_length, slice(544, 959))


def check_area(data, given, verdict, later):
    """All steps on the bytes of an area, whose later bytes must have one value."""
    if data[:4] != b"TRZB":
        return Refusal(1, 2)
    if bad_keys(given.m, given.n):
        return Refusal(16, 0)
    return (loader_shape(data)
            or signed(number_at(data, 8), given.time, data[959], given.m, given.n, verdict, 2)
            or check_code(data, 0, later, LONGEST_LOADER) or accepted(0, data))


def check_card(data, given):
    return check_area(data, given, given.card, b"\0")


def check_internal(data, given):
    return check_area(data, given, given.internal, ERASED)


def loader_code(data, answer):
    """The code, empty after a refusal."""
    return b"" if isinstance(answer, Refusal) else data[1_024:1_024 + answer.codelen]


def loader_question(data):
    """The digest to be signed, or the refusal in its place."""
    if data[:4] != b"TRZB":
        return Refusal(1, 2)
    return loader_shape(data) or digest(data[:959] + bytes(65))


def choose(card, internal, given):
    """Which area holds the loader to run, or the internal refusal; and the loader, header and code."""
    answer = check_card(card, given)
    if isinstance(answer, Accepted):
        return "card", card[:1_024 + answer.codelen]
    answer = check_internal(internal, given)
    if isinstance(answer, Accepted):
        return "internal", internal[:1_024 + answer.codelen]
    return answer, b""


# The older model: a V2 header and code at 0, or behind a legacy header. The V2 header is laid out like
# the firmware header up to its hashes. All digests are SHA-256.

LEGACY = 256
OLDER_ROOM = CHUNK - 1_024 - LEGACY
LONGEST_OLDER = LARGEST - 1_024 - LEGACY


class OlderInputs(NamedTuple):
    """The time, the number of keys in the key sheet, and three verdicts for each header."""
    time: int
    sheet: int
    legacy: tuple
    v2: tuple


def legacy_shape(data):
    """The steps of the legacy header through its zero bytes."""
    if data[:4] != b"TRZR":
        return Refusal(1, 1)
    if len(data) < LEGACY:
        return Refusal(2, 1)
    length = number_at(data, 4)
    if length % 4 != 0 or not 1_028 <= length <= 2_096_896:
        return Refusal(12, 1)
    if any(data[11:64]):
        return Refusal(6, 1)
    return None


def v2_shape(data, at):
    """The steps of the V2 header at this place through its zero bytes. Behind a legacy header its
    codelen is exactly 1,024 less than that one's."""
    header = data[at:at + 1_024]
    if header[:4] != b"TRZF":
        return Refusal(10, 2)
    if len(header) < 1_024:
        return Refusal(2, 2)
    length = number_at(header, 12)
    bad_length = (bad_code_length(LONGEST_OLDER, length)
                  or at and length != number_at(data, 4) - 1_024)
    return fields_shape(header, bad_length, slice(0x2E3, 0x400))


def older_signed(indexes, sheet, verdicts, part):
    """Indexes count from 1, lie in the sheet and are distinct. All verdicts are yes."""
    if any(not 1 <= index <= sheet for index in indexes) or len(set(indexes)) < 3:
        return Refusal(8, part)
    if not all(verdicts):
        return Refusal(9, part)
    return None


def older_v2(data, at, given):
    """All steps of the V2 header at this place."""
    refusal = v2_shape(data, at)
    if refusal:
        return refusal
    expiry = number_at(data, at + 8)
    if expiry != 0 and given.time > expiry:
        return Refusal(7, 2)
    return older_signed(data[at + 0x2E0:at + 0x2E3], given.sheet, given.v2, 2)


def older_legacy(data, given):
    """All steps of the legacy header."""
    return legacy_shape(data) or older_signed(data[8:11], given.sheet, given.legacy, 1)


def check_older(data, given, pair, slot):
    """All steps on the bytes of a file or of a slot, which hold the pair or the V2 header alone."""
    if not 3 <= given.sheet <= 255:
        return Refusal(16, 0)
    at = LEGACY if pair else 0
    return ((older_legacy(data, given) if pair else None) or older_v2(data, at, given)
            or check_code(data, at, ERASED if slot else b"", OLDER_ROOM, older_digest)
            or accepted(0, data[at:]))


def older_code(data, answer, pair):
    """The code, empty after a refusal."""
    start = (LEGACY if pair else 0) + 1_024
    return b"" if isinstance(answer, Refusal) else data[start:start + answer.codelen]


def v2_question(data, pair):
    """The digest to be signed of the V2 header, or the refusal in its place."""
    at = LEGACY if pair else 0
    signed_bytes = data[at:at + 0x220] + bytes(195) + data[at + 0x2E3:at + 0x400]
    return ((legacy_shape(data) if pair else None) or v2_shape(data, at)
            or older_digest(signed_bytes))


def legacy_question(data):
    """The digest to be signed of the legacy header: of the codelen bytes behind it."""
    refusal = legacy_shape(data)
    if refusal:
        return refusal
    end = LEGACY + number_at(data, 4)
    return Refusal(2, 3) if len(data) < end else older_digest(data[LEGACY:end])
