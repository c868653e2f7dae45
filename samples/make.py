#!/usr/bin/env python3
"""Writes the sample books, and beside each a text that says what is in it.

The sheets (.sheet) and what the drive program prints (.drive) are made from the books by samples/remake.
"""
import os


class Bench:
    """A valve bench: valves with the names of their positions, and interlocks in words.

    An interlock (a, p, b, q) holds valve a from moving into or out of position p while valve b stands at q.
    """

    def __init__(self, name, valves, interlocks):
        self.name, self.valves, self.interlocks = name, valves, interlocks
        self.settings = 1
        for positions in valves.values():
            self.settings *= len(positions)

    def kind(self):
        return 1

    def setting(self, **stand):
        """The setting with these valves where it is said, and every other valve at its first position."""
        number, weight = 0, 1
        for valve, positions in self.valves.items():
            number += weight * positions.index(stand.pop(valve, positions[0]))
            weight *= len(positions)
        assert not stand, stand
        return number

    def row(self, a, p, b, q):
        names = list(self.valves)
        return [names.index(a), self.valves[a].index(p), names.index(b), self.valves[b].index(q)]

    def body(self):
        counts = [len(self.valves), len(self.interlocks)]
        positions = [len(p) for p in self.valves.values()]
        return bytes(counts + positions + [n for lock in self.interlocks for n in self.row(*lock)])

    def words(self):
        yield f'{self.name}: a bench of {len(self.valves)} valves, {self.settings:,} settings'
        for v, (valve, positions) in enumerate(self.valves.items()):
            yield f'  valve {v}, {valve}: ' + ', '.join(f'{p} {w}' for p, w in enumerate(positions))
        for lock in self.interlocks:
            a, p, b, q = lock
            numbers = ', '.join(map(str, self.row(*lock)))
            yield f'  interlock ({numbers}): {a} does not move into or out of {p} while {b} is {q}'


class Track:
    """Stations from 0, and links between two of them; operation r runs along link r."""

    def __init__(self, name, stations, links):
        self.name, self.stations, self.links = name, stations, links

    def kind(self):
        return 2

    def body(self):
        numbers = [self.stations, len(self.links)] + [s for link in self.links for s in link]
        return b''.join(n.to_bytes(2, 'little') for n in numbers)

    def words(self):
        yield f'{self.name}: a track of {self.stations} stations and {len(self.links)} links'
        for at in range(0, len(self.links), 8):
            row = self.links[at:at + 8]
            yield f'  links {at} to {at + len(row) - 1}: ' + ', '.join(f'{a}-{b}' for a, b in row)


class Job:
    """A job on an earlier entry of the book."""

    def __init__(self, entry, start, target, bound, why):
        self.entry, self.start, self.target, self.bound, self.why = entry, start, target, bound, why

    def kind(self):
        return 3

    def body(self):
        return (bytes([self.entry, 0]) + self.bound.to_bytes(2, 'little') + self.start.to_bytes(4, 'little')
                + self.target.to_bytes(4, 'little'))

    def words(self):
        yield f'job on entry {self.entry}: from {self.start} to {self.target}, bound {self.bound}: {self.why}'


class Steps:
    """A steps body; it belongs on a sheet, and a book that has one is no book."""

    def __init__(self, count, operations):
        self.count, self.operations = count, operations

    def kind(self):
        return 4

    def body(self):
        return bytes(2) + self.count.to_bytes(8, 'little') + b''.join(o.to_bytes(2, 'little') for o in self.operations)

    def words(self):
        yield f'steps: operations {self.operations}, count {self.count}'


def packed(entries):
    """The bytes of a file of these entries."""
    rows = b''.join(bytes([e.kind(), 0]) + len(e.body()).to_bytes(2, 'little') for e in entries)
    return bytes([len(entries), 0]) + rows + b''.join(e.body() for e in entries)


def hexadecimal(data):
    rows = [data[at:at + 16] for at in range(0, len(data), 16)]
    return ''.join('  ' + ' '.join(f'{b:02X}' for b in row) + '\n' for row in rows)


def write(name, about, data, entries):
    folder = os.path.dirname(os.path.abspath(__file__))
    text = about + f'\n\n{len(data)} byte{"" if len(data) == 1 else "s"}'
    text += f' in {name}.book' + (':\n' + hexadecimal(data) if len(data) <= 64 else '.\n')
    if entries:
        text += '\n'
    for number, entry in enumerate(entries):
        text += f'entry {number}, ' + '\n'.join(entry.words()).replace('_', ' ') + '\n'
    with open(os.path.join(folder, name + '.book'), 'wb') as out:
        out.write(data)
    with open(os.path.join(folder, name + '.txt'), 'w') as out:
        out.write(text)


def book(name, about, *entries):
    write(name, about, packed(entries), entries)


# ---- Books without a fault

bench_a = Bench('bench A', {'first': ['shut', 'half', 'open'], 'second': ['shut', 'open']},
                [('first', 'open', 'second', 'shut')])
detour = Job(0, 0, 2, 4, 'two moves of the first valve would do, but for the interlock')

book('bench-a', 'The smallest bench with an interlock that matters, and one job on it.', bench_a, detour)

book('empty', 'A book without entries. Its sheet has two bytes.')

loop = Bench('test loop', {
    'suction': ['shut', 'open'],
    'tank_return': ['shut', 'open'],
    'bypass': ['shut', 'half', 'open'],
    'pressure_line': ['shut', 'half', 'open'],
    'relief': ['50_bar', '100_bar', '150_bar', '200_bar'],
    'clutch': ['out', 'in'],
    'speed': ['stop', 'slow', 'middle', 'full'],
    'meter': ['none', 'small', 'large'],
    'filter': ['left', 'right'],
    'cooler': ['off', 'half', 'full'],
    'drain': ['shut', 'open'],
    'leak_port': ['shut', 'low_side', 'high_side'],
}, [
    ('speed', 'slow', 'suction', 'shut'),
    ('speed', 'slow', 'clutch', 'out'),
    ('speed', 'full', 'cooler', 'off'),
    ('clutch', 'in', 'speed', 'full'),
    ('suction', 'shut', 'speed', 'middle'),
    ('suction', 'shut', 'speed', 'full'),
    ('filter', 'right', 'pressure_line', 'open'),
    ('drain', 'open', 'speed', 'full'),
    ('relief', '200_bar', 'cooler', 'off'),
    ('leak_port', 'high_side', 'relief', '200_bar'),
    ('pressure_line', 'open', 'bypass', 'shut'),
])
warm = dict(suction='open', tank_return='open', bypass='open', clutch='in', speed='slow', meter='small')
load = dict(suction='open', tank_return='open', bypass='half', pressure_line='open', relief='200_bar', clutch='in',
            speed='full', meter='large', cooler='full')
at = loop.setting
book('twelve', 'A test loop of twelve valves with jobs of every outcome.',
     loop,
     Job(0, at(), at(**warm), 10, 'from rest to warming up'),
     Job(0, at(**warm), at(**load), 11, 'from warming up to full load'),
     Job(0, at(**load), at(**{**load, 'filter': 'right'}), 3, 'change the filter under load, by way of the pressure line'),
     Job(0, at(**load), at(**{**load, 'filter': 'right'}), 2, 'the same within two operations: out of reach'),
     Job(0, at(**load), at(**{**load, 'leak_port': 'high_side'}), 6, 'leak port to the high side at 200 bar: lower first'),
     Job(0, at(**load), at(drain='open'), 255, 'from full load to drained, with too loose a bound: overfull'),
     Job(0, at(**load), at(drain='open'), 18, 'from full load to drained, with a close bound'),
     Job(0, at(), loop.settings, 20, 'the target is the first setting that the bench does not have'),
     Job(0, at(), at(**warm), 256, 'the bound is above 255'),
     Job(0, loop.settings, at(), 256, 'no such start, and the bound above 255: the first of the two is told'),
     Job(0, at(**warm), at(**warm), 0, 'already there'))

# A main line from 0 to 23 and back to 0, two sidings off it, a short cut, and a workshop that nothing joins to it.
main_line = [(s, (s + 1) % 24) for s in range(24)]
north_siding = [(3, 24), (24, 25), (25, 26), (26, 27), (27, 9)]
south_siding = [(14, 28), (28, 29), (29, 30), (28, 31), (31, 32)]
short_cut = [(6, 18), (6, 18)]
workshop = [(36, 33), (33, 34), (34, 35), (35, 36)]
hall = Track('hall', 37, main_line + north_siding + south_siding + short_cut + workshop)
book('track', 'A track of 37 stations: a ring with two sidings and a short cut, and a workshop apart from it.',
     hall,
     Job(0, 0, 5, 255, 'along the ring'),
     Job(0, 0, 12, 255, 'half way round: the north siding saves one operation'),
     Job(0, 5, 19, 255, 'by the short cut, along the lower of its two links'),
     Job(0, 3, 9, 255, 'by the north siding, one operation shorter than along the ring'),
     Job(0, 30, 26, 255, 'from one siding to the other'),
     Job(0, 30, 26, 9, 'the same, with a bound that is one short: out of reach'),
     Job(0, 35, 33, 255, 'within the workshop, two ways of the same length'),
     Job(0, 0, 33, 255, 'into the workshop: out of reach'),
     Job(0, 20, 20, 0, 'already there'),
     Job(0, 0, 37, 255, 'no such station'))

rig = Bench('rig', {'inlet': ['shut', 'open'], 'outlet': ['shut', 'half', 'open'], 'vent': ['shut', 'open']},
            [('inlet', 'open', 'vent', 'open'), ('outlet', 'open', 'inlet', 'shut')])
cart = Track('cart', 5, [(0, 1), (1, 2), (2, 3), (3, 0), (2, 4)])
to_open = rig.setting(inlet='open', outlet='open')
book('mixed', 'Two benches and a track, with jobs between them that name each.',
     bench_a,
     Job(0, 0, 2, 4, 'on bench A'),
     rig,
     Job(2, 0, to_open, 8, 'on the rig: open inlet and outlet'),
     Job(2, rig.setting(vent='open'), to_open, 8, 'on the rig: the vent first'),
     cart,
     Job(5, 4, 0, 9, 'on the cart'),
     Job(0, 5, 0, 255, 'on bench A again, back to the beginning'),
     Job(2, to_open, 12, 8, 'on the rig: a target that is one too high'),
     Job(5, 4, 0, 2, 'on the cart: one operation short'))



def lettered(name, counts, rows):
    """A bench whose valves are called A, B, C, .. and have so many positions; interlocks in numbers."""
    valves = {'ABCDEFGHIJKL'[v]: ['first', 'second', 'third', 'fourth'][:n] for v, n in enumerate(counts)}
    names = list(valves)
    return Bench(name, valves, [(names[a], valves[names[a]][p], names[b], valves[names[b]][q]) for a, p, b, q in rows])


book('full', 'Two benches whose jobs need just as many records as there are, 8,192, and one more.',
     lettered('nine valves', [4, 4, 2, 4, 4, 2, 2, 3, 3], [(7, 1, 3, 0), (5, 1, 4, 2), (8, 0, 3, 0)]),
     lettered('nine other valves', [3, 3, 2, 4, 3, 2, 4, 3, 3], [(6, 3, 7, 0), (2, 0, 6, 0), (1, 2, 6, 2)]),
     Job(0, 13084, 12642, 255, 'needs 8,192 records'),
     Job(1, 6331, 12842, 255, 'needs 8,193 records: overfull'))

# ---- Books with a fault

write('one-byte', 'A file of one byte: too short for the number of entries and the zero behind it.', b'\x02', ())

sound = packed([bench_a, detour])

write('cut', 'The book of bench A without its last byte: the fault names the length of the file.', sound[:-1], ())

write('longer', 'The book of bench A with one byte more: the fault names that byte.', sound + b'\x00', ())

write('kind', 'The book of bench A with kind 5 in its second row, at byte 6.', sound[:6] + b'\x05' + sound[7:], ())

write('damaged', 'The book of bench A with an interlock of a valve against itself: byte 16 is 0 in place of 1.',
      sound[:16] + b'\x00' + sound[17:], ())

write('later', 'The book of bench A with a job on entry 1, which is itself: byte 18 is 1 in place of 0.',
      sound[:18] + b'\x01' + sound[19:], ())

book('steps', 'A sound file, and no book: its entry 2 is a steps body, with the kind byte at 10.',
     bench_a, detour, Steps(16, [0, 2, 0, 3]))
