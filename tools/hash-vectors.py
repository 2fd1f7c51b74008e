#!/usr/bin/env python3
"""Makes crates/test_hash_vectors/data with Python's hashlib (OpenSSL behind it), an implementation that shares nothing with crates/.

Line n of each file, counted from 0, is the digest in hex of the first n bytes of the pattern, n from 0 to 1,024.
"""
import hashlib
import pathlib

data = pathlib.Path(__file__).resolve().parent.parent / "crates/test_hash_vectors/data"
pattern = bytes((i * 7 + 3) % 256 for i in range(1024))
for name, hash in (("sha256", hashlib.sha256), ("sha3-256", hashlib.sha3_256)):
    lines = [hash(pattern[:n]).hexdigest() + "\n" for n in range(1025)]
    (data / f"{name}.txt").write_text("".join(lines))
