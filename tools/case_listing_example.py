#!/usr/bin/env python3
"""Writes the recording that the listing of a case is run on, and what it should print: crates/case_listing/stdin and stdout."""
import processor
import wire
from listing_example import NAMES, words, write_run
from processor import CUT, DRAIN, FULL_FENCE, LAYERS, LOAD, STORE, STORE_FENCE, STRONG, WEAK, Machine

REASONS = {**wire.REASONS, **processor.REASONS}


def entry_words(entry):
    return {
        STORE: f'the store of {entry.value} ({entry.value:#x}), width {entry.width}, at address {entry.address} '
               f'(line {entry.line})',
        STRONG: f'the strong flush of line {entry.line}',
        WEAK: f'the weak flush of line {entry.line}',
        STORE_FENCE: 'the store fence',
    }[entry.kind]


def source_words(source):
    if source is None:
        return 'no store of this run'
    if source[0] == 'waiting':
        return f'{source[1]} from a waiting store'
    return f'{source[2]} from the store at moment {source[1]}'


def listing(recording):
    """The lines for a recording."""
    machine, counts, lines = Machine(), [0] * 8, []
    for at in range(0, len(recording), 16):
        message = recording[at:at + 16]
        run, threads = machine.runs[-1], machine.threads
        count, floors = run.count, dict(run.floors)
        waited = [list(thread.waiting) for thread in threads]
        fault = machine.log(message)
        if fault:
            number, layer, place = fault
            layer_name, place_name = LAYERS[layer]
            lines.append(f'{at // 16}: refused, since {REASONS[number]}: fault {number} of layer {layer} ({layer_name}) '
                         f'at {place_name} {place}')
            break
        kind, thread, *rest = wire.fields(message)
        counts[kind - 1] += 1
        lines.append(f'{at // 16}: {words(kind, thread, *rest)}')
        if kind in (STORE, STRONG, WEAK, STORE_FENCE):
            lines.append(f'    waits as entry {len(threads[thread].waiting)} of thread {thread}')
        elif kind in (DRAIN, FULL_FENCE):
            leaving = waited[thread][:1] if kind == DRAIN else waited[thread]
            for moment, entry in enumerate(leaving, count + 1):
                lines.append(f'    {entry_words(entry)} leaves at moment {moment}')
            if kind == FULL_FENCE:
                lines.append(f'    the fence takes moment {run.count}')
            for line, floor in sorted(run.floors.items()):
                if floor != floors.get(line, 0):
                    lines.append(f'    the floor of line {line} is now {floor}')
        elif kind == LOAD:
            load = machine.loads[-1]
            lines.append(f'    kept as load {len(machine.loads) - 1} of run {load.run}')
            for i, source in enumerate(load.sources):
                lines.append(f'    byte {load.address + i}: {source_words(source)}')
        else:
            lines.append(f'    run {machine.present() - 1} is closed with count {count}, '
                         f'and {sum(map(len, waited))} waiting entries are lost')
    lines.append(f'messages accepted: {machine.accepted}')
    for name, number in zip(NAMES, counts):
        lines.append(f'  {name}: {number}')
    for r, run in enumerate(machine.runs):
        lines.append(f'run {r}{" (present)" if r == machine.present() else ""}: count {run.count}')
        for moment, entry in run.stores:
            lines.append(f'  moment {moment}: {entry_words(entry)}')
        for line, floor in sorted(run.floors.items()):
            lines.append(f'  the floor of line {line} is {floor}')
    lines.append(f'loads kept: {len(machine.loads)}')
    return lines


def each_leaves(*entries):
    """Entries, each of which leaves as soon as it waits."""
    return [event for entry in entries for event in (entry, (DRAIN, entry[1]))]


events = [
    # a floor raised by a strong flush, and one by a weak flush and its store fence
    *each_leaves((STORE, 0, 0, 1, 7), (STRONG, 0, 0)),
    *each_leaves((STORE, 1, 64, 8, 0x0102030405060708), (WEAK, 1, 127), (STORE_FENCE, 1)),
    # bytes of a load from a waiting store, from cached stores and from none
    (STORE, 2, 70, 2, 0x0a0b), (LOAD, 2, 64, 8, 0x0a0b030405060708), (LOAD, 3, 64, 8, 0x0102030405060708),
    (LOAD, 0, 0, 2, 7), (LOAD, 3, 4088, 8, 0), (DRAIN, 2), (LOAD, 3, 68, 4, 0x0a0b0304),
    # a full fence with eight entries waiting: three floors, that of line 63 raised twice
    (STORE, 3, 4088, 8, 2 ** 64 - 1), (WEAK, 3, 4095), (STORE_FENCE, 3), (STORE, 3, 4095, 1, 9), (WEAK, 3, 4032),
    (STRONG, 3, 128), (STORE, 3, 128, 4, 0xdeadbeef), (WEAK, 3, 4), (LOAD, 3, 4088, 8, 0x09ffffffffffffff), (FULL_FENCE, 3),
    (FULL_FENCE, 2),
    # another thread's store does not count for the mark: nothing is raised
    *each_leaves((STORE, 1, 192, 2, 513), (WEAK, 0, 192)), (FULL_FENCE, 0),
    (CUT,),
    # the next run knows nothing of the stores before
    (LOAD, 0, 0, 1, 7), (LOAD, 1, 64, 2, 0x0708), *each_leaves((WEAK, 3, 4095), (STORE_FENCE, 3)),
]
# stores and flushes of many lines, of every thread
for i in range(17):
    thread, address = i % 4, i * 232
    events += each_leaves((STORE, thread, address, 2, i * 257), (STRONG if i % 3 == 0 else WEAK, thread, address + i % 8))
events += [
    # the youngest waiting store gives the byte, and only to its own thread
    (STORE, 0, 232, 1, 1), (STORE, 0, 232, 1, 2), (LOAD, 0, 232, 2, 0x0102), (LOAD, 1, 232, 2, 0x0101),
    # each fence raises the floors of its own thread's flush set, and no others
    *each_leaves((STORE_FENCE, 1)), (FULL_FENCE, 2), (LOAD, 2, 464, 1, 2),
    # the cut loses what waits, and the flush sets of threads 0 and 3
    (STORE, 1, 0, 8, 1), (WEAK, 1, 0), (STORE_FENCE, 1), (STRONG, 2, 64), (STORE, 3, 4095, 1, 255),
    (CUT,),
    *each_leaves((STORE, 3, 4095, 1, 254)), (LOAD, 2, 4088, 8, 2 ** 64 - 1), *each_leaves((WEAK, 3, 4090)), (FULL_FENCE, 3),
    (STORE, 2, 8, 4, 5), (STORE, 2, 12, 4, 6), (DRAIN, 2), (LOAD, 2, 8, 8, 0x0600000005), (LOAD, 1, 8, 8, 5),
    *each_leaves((STRONG, 1, 8)), (LOAD, 0, 56, 8, 0),
]
# no entry of thread 3 waits; what comes behind is not looked at
recording = b''.join(wire.write(*event) for event in events + [(DRAIN, 3), (CUT,)]) + b'\x1f'

write_run('case_listing', recording, listing(recording))
print(len(events), 'messages and a refused one')
