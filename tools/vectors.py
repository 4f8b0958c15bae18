#!/usr/bin/env python3
"""Writes the digests that crate `test_vectors` must print, each by crates `base_md5` and `bench_md5_bytes`, by Python's own MD5.

usage: tools/vectors.py > crates/test_vectors/stdout
"""
import hashlib

PUBLISHED = [
    b"",
    b"a",
    b"abc",
    b"message digest",
    b"abcdefghijklmnopqrstuvwxyz",
    b"ABCDEFGHIJKLMNOPQRSTUVWXYZabcdefghijklmnopqrstuvwxyz0123456789",
    b"1234567890" * 8,
]
LENGTHS = [55, 56, 63, 64, 65, 119, 120, 1_000_000]

for message in PUBLISHED + [bytes((i * 7 + 3) % 251 for i in range(n)) for n in LENGTHS]:
    digest = hashlib.md5(message).hexdigest()
    print(digest, digest)
