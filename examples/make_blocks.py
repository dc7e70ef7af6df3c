#!/usr/bin/env python3
"""Writes the block files of this folder, and those that only the gate reads: python3 examples/make_blocks.py

A block file is 17, the number of blocks (two bytes, high first), then for each block its first and its last address (four
bytes each, high first) and its home. Blocks stand in rising order of the first address, and no two overlap. The block at
place k, counted from 0, is block k."""
import ipaddress, os

here = os.path.dirname(os.path.abspath(__file__))

def address(text): return int(ipaddress.IPv4Address(text))

def encode(blocks):
    return bytes([17, len(blocks) >> 8, len(blocks) & 255]) + b''.join(
        address(first).to_bytes(4, 'big') + address(last).to_bytes(4, 'big') + bytes([home]) for first, last, home in blocks)

def write(name, blocks):
    numbers = [(address(first), address(last)) for first, last, _ in blocks]
    assert all(first <= last for first, last in numbers)
    assert all(one[1] < other[0] for one, other in zip(numbers, numbers[1:]))
    open(os.path.join(here, name), 'wb').write(encode(blocks))

def for_the_gate(name, data):
    """Among the data of the program that the gate runs. All but the empty one are refused."""
    open(os.path.join(here, '..', 'crates', 'gate', 'data', name), 'wb').write(data)

def many(count, home): return [(f'10.0.{k >> 8}.{k & 255}', f'10.0.{k >> 8}.{k & 255}', home) for k in range(count)]

one = [('10.0.0.0', '10.0.0.255', 0)]
for name in ('a', 'c', 'd', 'e', 'loop'): write(f'{name}.blocks', one)
write('sixteen.blocks', [('10.0.0.0', '10.0.0.255', 15), ('10.0.1.0', '10.0.1.127', 4), ('10.0.4.0', '10.0.7.255', 0),
                         ('192.168.0.1', '192.168.0.1', 9)])
write('sixty.blocks', [('10.0.0.0', '10.0.255.255', 59), ('10.1.0.0', '10.1.0.255', 27), ('10.1.1.0', '10.1.1.0', 0),
                       ('10.1.1.1', '10.1.1.1', 54), ('255.255.255.0', '255.255.255.255', 24)])

second = ('10.0.1.0', '10.0.1.255', 0)
for_the_gate('kind.blocks', b'\x10' + encode(one)[1:])
for_the_gate('cut.blocks', encode(one)[:-1])
for_the_gate('past.blocks', encode(one) + b'\0')
for_the_gate('head.blocks', encode(one)[:2])
for_the_gate('home.blocks', encode([('10.0.0.0', '10.0.0.255', 3), ('10.0.1.0', '10.0.1.255', 4)]))
for_the_gate('falling.blocks', encode([second, ('10.0.2.0', '10.0.2.0', 0)] + one))
for_the_gate('twice.blocks', encode([second, second]))
for_the_gate('turned.blocks', encode([('10.0.0.255', '10.0.0.0', 0)]))
for_the_gate('overlap.blocks', encode(one + [('10.0.0.255', '10.0.1.0', 0)]))
for_the_gate('first.blocks', encode(one + [('9.0.0.0', '8.0.0.0', 4)]))
for_the_gate('empty.blocks', encode([]))
for_the_gate('surplus.blocks', encode(many(257, 0)))
for_the_gate('sixty-five.blocks', encode(many(65, 0)))
