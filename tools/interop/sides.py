"""The two sides. Here: the archive's calls, through ctypes, as include/thimmorel.h documents them.
There: trezorlib's structures, digests and signatures. Both make an image from the same Fields. It
assumes that `run` has made target/interop/libthimmorel.so."""

from ctypes import CDLL, POINTER, Structure, c_char_p, c_uint32, c_uint64, create_string_buffer
from dataclasses import dataclass
from pathlib import Path

from construct import Container
from trezorlib import cosi, firmware

FIRMWARE_HEADER = 1_024

# The sigmask and the signature, at the end of each header.
SEAL = 65
UNSIGNED = bytes(SEAL)


class Differs(Exception):
    """Says what is not as it should be."""


@dataclass
class CodeFields:
    """What a header in front of code is made from, and the code."""

    expiry: int
    version: bytes
    fix: bytes
    code: bytes

    def versions(self):
        """Version and fix version as words."""
        return [int.from_bytes(version, "little") for version in (self.version, self.fix)]


@dataclass
class Fields(CodeFields):
    """What an image is made from. A mask says which keys sign the header: of the boot loader's keys
    for the vendor header, of the vendor's for the firmware header."""

    v: int
    vendor_expiry: int
    vendor_version: bytes
    m: int
    keys: list
    vtrust: int
    string: bytes
    picture: bytes
    vendor_mask: int
    firmware_mask: int

    def __str__(self):
        return (f"n {len(self.keys)}, string of {len(self.string)}, picture of"
                f" {len(self.picture)}, v {self.v}, code of {len(self.code)}")

    def picture_start(self):
        string_end = 32 + 32 * len(self.keys) + 1 + len(self.string)
        return string_end + -string_end % 4

    def picture_end(self):
        return self.picture_start() + len(self.picture)


# Keys and signatures, by trezorlib

PRIVATE = {}


def make_key(private):
    """A public key. PRIVATE keeps its private key."""
    public = cosi.pubkey_from_privkey(private)
    PRIVATE[public] = private
    return public


# trezorlib asks to set these where the keys are not its makers'.
BOOT_KEYS = firmware.V2_BOOTLOADER_KEYS = [make_key(bytes([i]) * 32) for i in (1, 2, 3)]
POLICY = firmware.V2_SIGS_REQUIRED, len(BOOT_KEYS)


def sign(digest, keys, mask):
    """The mask, and the signature by all keys that it names."""
    signers = [key for i, key in enumerate(keys) if mask >> i & 1]
    nonces = [cosi.get_nonce(PRIVATE[key], digest) for key in signers]
    joint_key = cosi.combine_keys(signers)
    commitment = cosi.combine_keys(public for _, public in nonces)
    signatures = [cosi.sign_with_privkey(digest, PRIVATE[key], joint_key, nonce, commitment)
                  for key, (nonce, _) in zip(signers, nonces)]
    return bytes([mask]) + cosi.combine_sig(commitment, signatures)


def is_signed(digest, seal, m, keys):
    try:
        cosi.verify(seal[1:], digest, m, keys, seal[0])
    except Exception:  # as trezorlib's validate does
        return False
    return True


# Here

LIBRARY = CDLL(str(Path(__file__).resolve().parents[2] / "target/interop/libthimmorel.so"))
WORD, LENGTH, BYTES = c_uint32, c_uint64, c_char_p
SLICE = [BYTES, LENGTH]


def struct(*fields):
    """A struct of the header: each field is its name and its type."""
    return type("Struct", (Structure,), {"_fields_": fields})


def words(names):
    return struct(*((name, WORD) for name in names.split()))


Inputs = words("time m n vendor_verdict firmware_verdict")
Answer = words("number part chunk")
Image = words("vendor_length code_length version fix_version")
Trust = words("seconds red_background click_needed string_shown secret_allowed")
VendorNumbers = words("expiry major minor m n vtrust sigmask")
FirmwareNumbers = words("vendor_length expiry version fix_version sigmask")
Span = struct(("start", LENGTH), ("length", LENGTH))
Parts = struct(("string", Span), ("picture", Span), ("code", Span))
Signature = struct(("sigmask", Span), ("sig", Span), ("keys", Span), ("m", LENGTH), ("n", LENGTH))


def exported(name, arguments, result=WORD):
    """A call of the archive. ctypes passes a struct by a pointer where one is declared."""
    call = LIBRARY["thimmorel_" + name]
    call.argtypes = [POINTER(kind) if issubclass(kind, Structure) else kind for kind in arguments]
    call.restype = result
    return call


CHECK = SLICE + [Inputs, Answer, Image]
WRITTEN = [BYTES] + SLICE + [POINTER(WORD)]
check_file = exported("check_file", CHECK)
check_slot = exported("check_slot", CHECK)
vendor_digest = exported("vendor_digest", SLICE + [Answer, BYTES])
firmware_digest = exported("firmware_digest", SLICE + [Answer, BYTES])
find_vendor_signature = exported("find_vendor_signature", SLICE + [Signature], None)
find_firmware_signature = exported("find_firmware_signature", SLICE + [Signature], None)
find_parts = exported("find_parts", SLICE + [WORD, Parts], None)
read_trust = exported("read_trust", SLICE + [Trust], None)
write_vendor = exported("write_vendor", [VendorNumbers] + 3 * SLICE + WRITTEN)
write_firmware = exported("write_firmware", [FirmwareNumbers] + SLICE + WRITTEN)


def told(answer):
    """The fields of a struct."""
    return [getattr(answer, name) for name, _ in answer._fields_]


def taken(file, span):
    return file[span.start:span.start + span.length]


def ask(question, file):
    """The digest that a signature is over, or None."""
    digest = create_string_buffer(32)
    refused = question(file, len(file), Answer(), digest)
    return None if refused else digest.raw


def find(call, file):
    """What a chip needs beside the digest: sigmask and signature, m of n, and the keys."""
    at = Signature()
    call(file, len(file), at)
    keys = taken(file, at.keys)
    return (taken(file, at.sigmask) + taken(file, at.sig), at.m, at.n,
            [keys[start:start + 32] for start in range(0, len(keys), 32)])


def seals(file):
    v = int.from_bytes(file[4:8], "little")
    return file[v - SEAL:v], file[v + FIRMWARE_HEADER - SEAL:v + FIRMWARE_HEADER]


def chip(file):
    """The verdicts of a signature chip that is given what the archive tells for it."""
    vendor_seal, _, _, _ = find(find_vendor_signature, file)
    firmware_seal, m, _, keys = find(find_firmware_signature, file)
    return (is_signed(ask(vendor_digest, file), vendor_seal, POLICY[0], BOOT_KEYS),
            is_signed(ask(firmware_digest, file), firmware_seal, m, keys))


def check(call, data, time, verdicts, kind=Inputs, policy=POLICY):
    """The answer, and what an acceptance tells: v, code length, version and fix version."""
    answer, image = Answer(), Image()
    number = call(data, len(data), kind(time, *policy, *verdicts), answer, image)
    if number != answer.number:
        raise Differs(f"{call.__name__} returns {number} and answers {answer.number}")
    if number:
        return f"refused {number} part {answer.part} chunk {answer.chunk}", None
    return "accepted", told(image)


def parts(file):
    """The string, the picture area and the code of an accepted image."""
    at = Parts()
    find_parts(file, len(file), 0, at)
    return [taken(file, span) for span in told(at)]


def trust(file):
    reading = Trust()
    read_trust(file, len(file), reading)
    return told(reading)


def written(writer, room, *arguments):
    out, length = create_string_buffer(room), WORD()
    number = writer(*arguments, out, room, length)
    if number:
        raise Differs(f"{writer.__name__} answers {number}")
    return out[:length.value]


def write(fields, picture, vendor_seal=UNSIGNED, firmware_seal=UNSIGNED):
    """The image by the writers. The picture may be a whole picture area."""
    keys = b"".join(fields.keys)
    vendor = written(
        write_vendor, 65_536,
        VendorNumbers(fields.vendor_expiry, *fields.vendor_version, fields.m, len(fields.keys),
                      fields.vtrust, vendor_seal[0]),
        keys, len(keys), fields.string, len(fields.string), picture, len(picture), vendor_seal[1:])
    header = written(
        write_firmware, FIRMWARE_HEADER,
        FirmwareNumbers(len(vendor), fields.expiry, *fields.versions(), firmware_seal[0]),
        fields.code, len(fields.code), firmware_seal[1:])
    return vendor + header + fields.code


def write_signed(fields, picture):
    """The image by the writers, signed over the digests from here."""
    draft = write(fields, picture)
    vendor_seal = sign(ask(vendor_digest, draft), BOOT_KEYS, fields.vendor_mask)
    firmware_seal = sign(ask(firmware_digest, draft), fields.keys, fields.firmware_mask)
    return write(fields, picture, vendor_seal, firmware_seal)


# There

def version_there(numbers):
    return Container(zip(("major", "minor", "patch", "build"), numbers))


def code_there(magic, fields, hashes, seal=UNSIGNED, signatures=3 * [bytes(64)], indexes=3 * [0]):
    """A header in front of code, and the code, as trezorlib's structure."""
    header = Container(
        magic=magic, header_len=FIRMWARE_HEADER, expiry=fields.expiry,
        code_length=len(fields.code), version=version_there(fields.version),
        fix_version=version_there(fields.fix), hashes=hashes, v1_signatures=signatures,
        v1_key_indexes=indexes, sigmask=seal[0], signature=seal[1:])
    return Container(header=header, code=fields.code)


def structure(fields, vendor_seal=UNSIGNED, firmware_seal=UNSIGNED):
    """The image as trezorlib's structure, with the code hashes that trezorlib computes."""
    vendor_header = Container(
        magic=b"TRZV", header_len=fields.v, expiry=fields.vendor_expiry,
        version=version_there(fields.vendor_version), sig_m=fields.m,
        sig_n=len(fields.keys), pubkeys=fields.keys,
        trust=firmware.VendorTrust.parse(fields.vtrust.to_bytes(2, "little")),
        text=fields.string.decode(), image=firmware.Toif.parse(fields.picture),
        sigmask=vendor_seal[0], signature=vendor_seal[1:])
    hashes = firmware.calculate_code_hashes(fields.code, fields.v + FIRMWARE_HEADER)
    image = code_there(firmware.HeaderType.FIRMWARE, fields, hashes, firmware_seal)
    return Container(vendor_header=vendor_header, image=image)


def build_signed(fields, fw):
    """The image by trezorlib, signed over trezorlib's digests."""
    for header, keys, mask in ((fw.vendor_header, BOOT_KEYS, fields.vendor_mask),
                               (fw.image.header, fields.keys, fields.firmware_mask)):
        seal = sign(firmware.header_digest(header), keys, mask)
        header.sigmask, header.signature = seal[0], seal[1:]
    return firmware.VendorFirmware.build(fw)


def trust_there(file):
    """The four readings that trezorlib names."""
    told = firmware.parse(file)[1].vendor_header.trust
    return [told.delay, told.red_background, told.require_user_click, told.show_vendor_string]


def validate(file):
    """What trezorlib's parse and validate answer."""
    try:
        version, fw = firmware.parse(file)
    except (ValueError, firmware.FirmwareIntegrityError):
        return "refused by parse"
    try:
        firmware.validate(version, fw)
    except firmware.FirmwareIntegrityError as refusal:
        return f"refused by validate: {refusal}"
    except AttributeError:  # it builds no header whose magic it does not know
        return "no answer, validate fails"
    return "accepted"
