#!/usr/bin/env python3
"""Writes a schedule of a group on standard output: it begins, its first voter leads, and is asked for backups.
usage: asks.py ASKS [VOTERS MARGIN]   by one voter and margin 0 if left out; by more, all messages are delivered after each ask"""
import sys

asks = int(sys.argv[1])
voters, margin = (int(word) for word in sys.argv[2:4]) if len(sys.argv) > 2 else (1, 0)
CLIENTS = 1_000
REQUEST = '12360a10' + 'aa' * 16 + '1220' + '11' * 32 + '1803'
# An entry is offered, promised and committed: to each other voter a message, and one back.
SETTLE = f'settle,{6 * (voters - 1)}' if voters > 1 else None

print(f'begin,{margin},20000,' + ','.join(str(id) for id in range(1, voters + 1)))
print('tick,1')
if SETTLE:
    # The votes, and the empty entry.
    print(f'settle,{8 * (voters - 1)}')
for number in range(1, asks + 1):
    print(f'ask,1,{number % CLIENTS:032x},{number},{REQUEST}')
    if SETTLE:
        print(SETTLE)
