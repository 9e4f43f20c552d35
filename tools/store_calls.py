#!/usr/bin/env python3
"""Writes crates/play_store/stdin: the calls of cut_store that the program play_store plays.

    tools/store_calls.py CALLS.jsonl > crates/play_store/stdin

First stand document 01's examples P1 to P5, P9 and P10, then the calls of CALLS.jsonl, one a line: {"call": .., "answer": ..},
of which those with "call": "store" are taken, but for all save the first four of those with more than 64 pairs. A record is eight u32 numbers, big-endian: keep-empty, the lengths of the work area
and of the output, the bytes of the store, the number of pairs, and what is wanted: number, length, bytes; then the store,
the pairs as u32 numbers, and the bytes wanted."""
import json, struct, sys

S = bytes.fromhex('00010000000c00010000001c' '00010002000040004000c000c0000000' '00030001000200000001' '006400ff3805000a00')
REGIONS = bytes.fromhex('00010002000040004000c000c0000000')  # one axis, two regions, as in S


def record(store, pairs, keep, number, want=b'', area=16384, room=None):
    room = len(want) + 5 if room is None else room
    length = len(want) if number == 0 else 0
    return (struct.pack('>8I', keep, area, room, len(store), len(pairs), number, length, length)
            + store + b''.join(struct.pack('>I', p) for p in pairs) + want[:length])


def store_of(subtable):
    """A store with the region list of S and one subtable."""
    return bytes.fromhex('00010000000c00010000001c') + REGIONS + subtable


def one_column(word_field, cells):
    """A subtable of one column, region 0, a cell a row."""
    return struct.pack('>4H', len(cells), word_field, 1, 0) + b''.join(cells)


def written(subtable):
    """A written store with S's first region and one subtable."""
    return bytes.fromhex('00010000000c000100000016' '00010001000040004000') + subtable


def examples():
    p1 = bytes.fromhex('00010000000c000100000016' '00010001000040004000' '000200000001' '0000' '640a')
    yield record(S, [0, 2], 0, 0, p1)                                                   # P1
    yield record(S, [0, 2], 0, 10, p1, room=31)
    yield record(S, [0, 2], 0, 1, p1, area=16383)
    yield record(S, [1], 0, 0, store_of(bytes.fromhex('00010001000200000001ff3805')))   # P2
    nothing = bytes.fromhex('00010000000c000100000010' '00010000')                      # P3: the row past the count is 0
    yield record(S, [3], 0, 7)
    yield record(S, [3], 1, 0, nothing + bytes.fromhex('000100000000'))
    for value, wide in ((127, 0), (128, 1), (-128, 0), (-129, 1)):                      # P4
        source = one_column(1, [struct.pack('>h', value)])
        cell = struct.pack('>h' if wide else '>b', value)
        yield record(store_of(source), [0], 0, 0, written(one_column(wide, [cell])))
    for value, number, field, cell in ((40000, 9, 0, ''), (65536, 0, 0x8001, '>i'), (65535, 9, 0, ''), (32767, 0, 1, '>h')):  # P5
        source = one_column(0x8001, [struct.pack('>i', value)])
        want = written(one_column(field, [struct.pack(cell, value)])) if cell else b''
        yield record(store_of(source), [0], 0, number, want)
    zeros = store_of(one_column(1, [bytes(2), bytes(2)]))                               # P9
    yield record(zeros, [0, 1], 1, 0, nothing + bytes.fromhex('000200000000'))
    yield record(zeros, [0, 1], 0, 7)
    yield record(S, [], 1, 0, bytes.fromhex('000100000008000000010000'))                # P10


def main():
    out = sys.stdout.buffer
    for r in examples():
        out.write(r)
    long = 0
    for line in open(sys.argv[1]):
        row = json.loads(line)
        call, answer = row['call'], row['answer']
        if call['call'] == 'store':
            if len(call['pairs']) > 64:
                long += 1
                if long > 4:
                    continue
            want = bytes.fromhex(answer.get('out', ''))
            out.write(record(bytes.fromhex(call['store']), call['pairs'], int(call['keep']), answer['no'], want, call['work'], call['out']))


main()
