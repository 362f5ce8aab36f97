"""A small reader and packer of service messages, written from docs/MESSAGES.md and docs/FAULTS.md and from no other code of
this repository, to hold the programs against."""

MAPS = {1: 0x1F, 2: 0x07, 3: 0x07, 4: 0x03, 5: 0x03, 6: 0x03, 7: 0x1F, 8: 0x01}
SIZES = [1, 1, 2, 1, 8]
UNWRITTEN = b'\xaa'
REASONS = {
    1: 'it is not 16 bytes long',
    2: 'bit 0 of its map is clear, or a bit of 5 to 7 is set',
    3: 'its kind is unknown',
    4: 'its map is not that of its kind',
    5: 'a filler byte is not 0',
    6: 'its thread is above 3',
    7: 'its address is above 4095',
    8: 'its width is not 1, 2, 4 or 8',
    9: 'its address is not a multiple of its width',
    10: 'a value byte beyond the width is not 0',
}


def layout(bits):
    """The offset and size of each field of a map, None where it lacks the field, and where the filler begins."""
    at, places = 1, []
    for bit, size in enumerate(SIZES):
        if bits >> bit & 1:
            places.append((at, size))
            at += size
        else:
            places.append(None)
    return places, at


def fields(message):
    places, _ = layout(message[0])
    return [0 if p is None else int.from_bytes(message[p[0]:p[0] + p[1]], 'little') for p in places]


def field_fault(bits, thread, address, width):
    if bits & 2 and thread > 3:
        return 6
    if bits & 4 and address > 4095:
        return 7
    if bits & 8 and width not in (1, 2, 4, 8):
        return 8
    if bits & 8 and address % width:
        return 9
    return None


def read(message):
    """(number, place) of the refusal, or the five fields."""
    if len(message) != 16:
        return 1, 0
    bits = message[0]
    if not bits & 1 or bits & 0xE0:
        return 2, 0
    if message[1] not in MAPS:
        return 3, 1
    if MAPS[message[1]] != bits:
        return 4, 0
    _, end = layout(bits)
    for i in range(end, 16):
        if message[i]:
            return 5, i
    kind, thread, address, width, value = fields(message)
    fault = field_fault(bits, thread, address, width)
    if fault:
        return fault, {6: 2, 7: 3, 8: 5, 9: 3}[fault]
    if bits & 16:
        for i in range(6 + width, 14):
            if message[i]:
                return 10, i
    return [kind, thread, address, width, value]


def write(kind, *rest):
    """The bytes of an event, whatever its fields hold."""
    bits = MAPS[kind]
    out = bytes([bits])
    for bit, (size, value) in enumerate(zip(SIZES, (kind,) + rest)):
        if bits >> bit & 1:
            out += (value % 256 ** size).to_bytes(size, 'little')
    return out + bytes(16 - len(out))


def pack(kind, thread, address, width, value, length):
    memory = UNWRITTEN * length
    fault = None
    if kind not in MAPS:
        fault = 3
    else:
        bits = MAPS[kind]
        fault = field_fault(bits, thread, address, width)
        if not fault and bits & 16 and value >= 256 ** width:
            fault = 10
        if not fault and length < 16:
            fault = 18
    if fault:
        return f'fault {fault} 4 0 {memory.hex()}'
    return f'packed {(write(kind, thread, address, width, value) + memory[16:]).hex()}'
