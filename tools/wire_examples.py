#!/usr/bin/env python3
"""Writes the table of wire examples and the answers that it should get: crates/wire_examples/stdin and stdout."""
import os

from wire import MAPS, REASONS, pack, read, write

lines, answers = [], []


def ask_read(message):
    got = read(message)
    lines.append(f'read {bytes(message).hex()}'.rstrip())
    if isinstance(got, tuple):
        answers.append(f'fault {got[0]} 1 {got[1]}: {REASONS[got[0]]}')
    else:
        answers.append('event ' + ' '.join(map(str, got)))


def ask_pack(*event):
    lines.append('pack ' + ' '.join(map(str, event)))
    answers.append(pack(*event))


def ask_parts(length):
    lines.append(f'parts {length}')
    parts = [f' {i}:{16 * i % 256}:{min(16, length - 16 * i)}' for i in range((length + 15) // 16)]
    answers.append('parts' + ''.join(parts))


def set_byte(message, i, b):
    return message[:i] + bytes([b]) + message[i + 1:]


def table():
    store = write(1, 3, 4088, 8, 0x0807060504030201)
    for length in (0, 1, 15, 16):
        ask_read(store[:length])
    ask_read(store + b'\0')
    for kind in range(0, 11):
        for bits in (0x00, 0x01, 0x03, 0x05, 0x07, 0x0F, 0x17, 0x1E, 0x1F, 0x21, 0x3F, 0x5F, 0x81, 0x9F, 0xFF):
            ask_read(set_byte(set_byte(write(8), 0, bits), 1, kind) if kind != 1 else set_byte(store, 0, bits))
    for kind in MAPS:
        plain = write(kind, 2, 4, 1, 0)
        ask_read(plain)
        for i in range(2, 16):
            ask_read(set_byte(plain, i, 1))
            ask_read(set_byte(plain, i, 0x80))
        for thread in (0, 3, 4, 255):
            ask_read(write(kind, thread, 0, 1, 0))
        for address in (0, 63, 64, 4095, 4096, 65535):
            ask_read(write(kind, 0, address, 1, 0))
    for width in list(range(0, 18)) + [128, 255]:
        ask_read(write(7, 1, 4088, width, 0))
    for width in (1, 2, 4, 8):
        for address in (1, 2, 4, 8, 4088, 4092, 4094, 4095, 4096):
            ask_read(write(1, 0, address, width, 0))
        for place in range(8):
            ask_read(write(1, 0, 0, width, 1 << 8 * place))
        ask_read(write(1, 0, 0, width, 256 ** width - 1))
    # two faults and more: the one of the smaller number comes
    ask_read(set_byte(set_byte(write(4, 9, 0, 0, 0), 0, 0x20), 15, 1))
    ask_read(set_byte(set_byte(write(4, 9, 0, 0, 0), 1, 9), 15, 1))
    ask_read(set_byte(set_byte(write(4, 9, 0, 0, 0), 0, 7), 15, 1))
    ask_read(set_byte(write(4, 9, 0, 0, 0), 15, 1))
    ask_read(write(1, 9, 5001, 3, 2 ** 60))
    ask_read(write(1, 3, 5001, 3, 2 ** 60))
    ask_read(write(1, 3, 4001, 3, 2 ** 60))
    ask_read(write(1, 3, 4001, 2, 2 ** 60))
    ask_read(write(1, 3, 4000, 2, 2 ** 60))

    for kind in range(0, 11):
        ask_pack(kind, 3, 4088, 8, 2 ** 64 - 1, 18)
        ask_pack(kind, 9, 5001, 3, 2 ** 60, 0)
        ask_pack(kind, 3, 5001, 3, 2 ** 60, 0)
        ask_pack(kind, 3, 4001, 3, 2 ** 60, 0)
        ask_pack(kind, 3, 4001, 2, 2 ** 60, 0)
        ask_pack(kind, 3, 4000, 2, 2 ** 60, 0)
        ask_pack(kind, 3, 4000, 2, 258, 15)
        ask_pack(kind, 3, 4000, 2, 258, 16)
        ask_pack(kind, 4, 0, 1, 0, 16)
        ask_pack(kind, 0, 4095, 1, 255, 16)
        ask_pack(kind, 0, 4096, 1, 255, 16)
    for width in (0, 1, 2, 3, 4, 5, 8, 9, 255):
        for value in (0, 255, 256, 65535, 65536, 2 ** 32 - 1, 2 ** 32, 2 ** 64 - 1):
            ask_pack(7, 1, 8, width, value, 17)

    for length in (0, 1, 15, 16, 17, 31, 32, 33, 47, 48, 49, 4096, 4097):
        ask_parts(length)


def write_table(crate):
    """Writes the rows and answers so far as what the program of a crate is run on and should print."""
    folder = os.path.join(os.path.dirname(os.path.dirname(os.path.abspath(__file__))), 'crates', crate)
    with open(os.path.join(folder, 'stdin'), 'w') as f:
        f.write('\n'.join(lines) + '\n')
    with open(os.path.join(folder, 'stdout'), 'w') as f:
        f.write('\n'.join(answers) + '\n')


if __name__ == '__main__':
    table()
    write_table('wire_examples')
    print(len(lines), 'examples')
