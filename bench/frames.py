#!/usr/bin/env python3
"""Writes a session on standard output: a Begin of one voter, a Tick, and so many Client frames, each the backup of a client.
usage: frames.py FRAMES [CLIENTS [KEY]]   over so many clients (1,000 if left out); with a key of 64 digits, tagged frames"""
import hashlib
import hmac
import struct
import sys

frames = int(sys.argv[1])
clients = int(sys.argv[2]) if len(sys.argv) > 2 else 1_000
key = bytes.fromhex(sys.argv[3]) if len(sys.argv) > 3 else None
REQUEST = bytes.fromhex('12360a10' + 'aa' * 16 + '1220' + '11' * 32 + '1803')


def contents():
    yield struct.pack('>BIBIBI', 1, 1, 0, 20_000, 1, 1)
    yield b'\x03'
    for number in range(1, frames + 1):
        yield b'\x05' + struct.pack('>QQQ', 0, number % clients, number) + REQUEST


for number, content in enumerate(contents()):
    sys.stdout.buffer.write(struct.pack('>I', len(content)) + content)
    if key is not None:
        text = b'\x01' + struct.pack('>Q', number) + content
        sys.stdout.buffer.write(hmac.digest(key, text, hashlib.sha256))
