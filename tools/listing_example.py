#!/usr/bin/env python3
"""Writes the recording that the listing is run on, and what it should print: crates/listing/stdin and stdout."""
import os

from wire import write

NAMES = ['store', 'strong flush', 'weak flush', 'store fence', 'full fence', 'drain', 'load', 'power cut']
STORE, STRONG, WEAK, STORE_FENCE, FULL_FENCE, DRAIN, LOAD, CUT = range(1, 9)


def words(kind, thread=0, address=0, width=0, value=0):
    place = f'address {address} (line {address // 64})'
    return {
        STORE: f'thread {thread} stores {value} ({value:#x}), width {width}, at {place}',
        STRONG: f'thread {thread} flushes {place} strongly',
        WEAK: f'thread {thread} flushes {place} weakly',
        STORE_FENCE: f'thread {thread} fences its stores',
        FULL_FENCE: f'thread {thread} fences in full',
        DRAIN: f'the oldest waiting entry of thread {thread} leaves',
        LOAD: f'thread {thread} loads {value} ({value:#x}), width {width}, at {place}',
        CUT: 'the power is cut',
    }[kind]


def message(kind, thread=0, address=0, width=0, value=0):
    return write(kind, thread, address, width, value)


# every kind once, then enough stores and flushes to fill a block of input, then the largest fields
events = [
    (STORE, 0, 0, 1, 7), (DRAIN, 0), (STRONG, 0, 0), (DRAIN, 0),
    (STORE, 1, 64, 8, 0x0102030405060708), (DRAIN, 1), (WEAK, 1, 127), (DRAIN, 1), (STORE_FENCE, 1), (DRAIN, 1),
    (FULL_FENCE, 2), (LOAD, 3, 64, 4, 0x05060708), (CUT,), (LOAD, 0, 0, 1, 7),
]
for i in range(15):
    thread, address = i % 4, i * 136
    events += [(STORE, thread, address, 2, i * 257), (DRAIN, thread)]
    events += [(STRONG if i % 2 else WEAK, thread, address + i % 60), (DRAIN, thread)]
events += [(STORE, 3, 4095, 1, 255), (LOAD, 2, 4088, 8, 2 ** 64 - 1)]

damaged = bytearray(message(STORE_FENCE, 1))
damaged[9] = 0x40
recording = b''.join(message(*e) for e in events) + bytes(damaged) + message(CUT) + b'\x1f'

lines = [f'{i}: {words(*e)}' for i, e in enumerate(events)]
lines.append(f'{len(events)}: refused, since a filler byte is not 0: fault 5 of layer 1 (message) at byte 9')
lines.append(f'messages read: {len(events)}')
for number, name in enumerate(NAMES, 1):
    lines.append(f'  {name}: {sum(e[0] == number for e in events)}')


def write_run(crate, recording, lines):
    """Writes what the program of a crate is run on and what it should print."""
    folder = os.path.join(os.path.dirname(os.path.dirname(os.path.abspath(__file__))), 'crates', crate)
    with open(os.path.join(folder, 'stdin'), 'wb') as f:
        f.write(recording)
    with open(os.path.join(folder, 'stdout'), 'w') as f:
        f.write('\n'.join(lines) + '\n')


if __name__ == '__main__':
    write_run('listing', recording, lines)
    print(len(events), 'messages and a damaged one')
