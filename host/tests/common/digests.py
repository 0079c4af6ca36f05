"""Reads messages from standard input, each behind its length in 8 bytes, least byte first.
Writes the digest of each, 32 bytes, once the input has ended. The argument names the hash function,
as hashlib does.
"""

import hashlib
import sys

digest_of = getattr(hashlib, sys.argv[1])
source = sys.stdin.buffer
digests = []
while prefix := source.read(8):
    message = source.read(int.from_bytes(prefix, "little"))
    digests.append(digest_of(message).digest())
sys.stdout.buffer.write(b"".join(digests))
