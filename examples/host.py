#!/usr/bin/env python3
"""A host of one enclave: starts `svr2 serve`, begins a group of one, lets its timer run out, hands it a client's backup, and
prints the batches that come back. What goes over the pipes is in docs/FORMATS.md, "Host frames" and "Batches".

    examples/host.py [--key HEX] [PROGRAM]

PROGRAM is the built program, else crates/svr2/out/svr2. With a key of 64 hexadecimal digits each frame goes out with a tag, and
the tag of each batch frame is checked.
"""
import argparse
import hashlib
import hmac
import pathlib
import struct
import subprocess
import sys

HERE = pathlib.Path(__file__).resolve().parent
words = argparse.ArgumentParser()
words.add_argument("--key")
words.add_argument("program", nargs="?", default=HERE.parent / "crates/svr2/out/svr2")
WORDS = words.parse_args()
KEY = bytes.fromhex(WORDS.key) if WORDS.key else None
CLIENT = bytes(15) + b"\x01"
SECRET = b"\xaa" * 16
PIN = b"\x11" * 32


def begin(replica, margin, limit, voters):
    return struct.pack(f">BIBIB{len(voters)}I", 1, replica, margin, limit, len(voters), *voters)


def backup(secret, pin, tries):
    """The client's request, in the wire format of Protocol Buffers: secret, PIN and tries, as member 2."""
    body = b"\x0a" + bytes([len(secret)]) + secret + b"\x12" + bytes([len(pin)]) + pin + b"\x18" + bytes([tries])
    return b"\x12" + bytes([len(body)]) + body


def ask(client, number, request):
    return b"\x05" + client + struct.pack(">Q", number) + request


def items(batch):
    """The items of a batch: a kind, a length in four bytes, and the content."""
    while batch:
        kind, length = struct.unpack_from(">BI", batch)
        yield kind, batch[5 : 5 + length]
        batch = batch[5 + length :]


def told(kind, content):
    if kind == 1:
        return f"it leads in term {int.from_bytes(content, 'big')}"
    if kind == 5:
        index, term, body = struct.unpack_from(">QQB", content)
        return f"committed at {index}, of term {term}: {('nothing', 'a request', 'the members')[body]}"
    if kind == 6:
        number, answer = struct.unpack_from(">QB", content, 16)
        return f"to request {number} of client {content[:16].hex()}: answer {answer}, {content[25:].hex()}"
    return f"item of kind {kind}: {content.hex()}"


def tag(side, number, content):
    """What stands behind a content: nothing, or its tag; the host is side 1, the enclave side 2."""
    return hmac.digest(KEY, struct.pack(">BQ", side, number) + content, hashlib.sha256) if KEY else b""


COMMAND = ["tagged", "--key", WORDS.key] if KEY else ["serve"]
with subprocess.Popen([WORDS.program, *COMMAND], stdin=subprocess.PIPE, stdout=subprocess.PIPE) as enclave:
    frames = [
        ("begin", begin(1, 0, 100, [1])),
        ("tick", b"\x03"),
        ("backup", ask(CLIENT, 1, backup(SECRET, PIN, 3))),
    ]
    for number, (what, content) in enumerate(frames):
        enclave.stdin.write(struct.pack(">I", len(content)) + content + tag(1, number, content))
        enclave.stdin.flush()
        (length,) = struct.unpack(">I", enclave.stdout.read(4))
        batch = enclave.stdout.read(length)
        if KEY and enclave.stdout.read(32) != tag(2, number, batch):
            sys.exit(f"{what}: the answer has another tag")
        print(f"{what}: {length} bytes")
        for kind, part in items(batch):
            print(f"  {told(kind, part)}")
    enclave.stdin.close()
sys.exit(enclave.returncode)
