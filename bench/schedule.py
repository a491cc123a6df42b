#!/usr/bin/env python3
"""Writes a schedule of requests to one table on standard output.
usage: schedule.py RECORDS [CLIENTS [even]]   mixed requests, by a fixed seed, over so many clients (20,000 if left out); half of
them are backups, or with `even` a quarter, as of each other request"""
import random, sys

records = int(sys.argv[1])
clients = int(sys.argv[2]) if len(sys.argv) > 2 else 20_000
bounds = (2, 4, 6) if sys.argv[3:] == ['even'] else (4, 6, 7)
draw = random.Random(1)
ids = [draw.getrandbits(128) for _ in range(clients)]


def field(number, content):
    """A field whose payload is bytes."""
    return bytes([number << 3 | 2, len(content)]) + content


def request(client):
    secret, pin = bytes([client % 251] * 32), bytes([client % 249] * 32)
    kind = draw.randrange(8)
    if kind < bounds[0]:
        return field(2, field(1, secret) + field(2, pin) + bytes([3 << 3, 3]))
    if kind < bounds[1]:
        return field(5, field(1, secret))
    if kind < bounds[2]:
        return field(3, field(1, pin))
    return field(4, b'')


for number in range(1, records + 1):
    client = draw.randrange(clients)
    print(f'{ids[client]:032x},{number},{request(client).hex()}')
