#!/usr/bin/env python3
"""Measures the memory that one window of `sonata plain` takes: bytes a packet, a key of each operator, and a printed row; and the peak of `sonata finish` over
reports of many windows, and of `sonata check` over a long tree.

Generates two captures of one window each, of as many packets as sources: with somewhat fewer than tables and lists have room for before they double, and with
somewhat more. Tells the peak over that of a window of one packet, divided by the packets; of keys and rows what they take beside the packets. The reports are
40 MB of frames in windows of 10,000 rows; what `finish` takes over the first of them alone is told beside it. No file is left. Needs a C compiler."""

import argparse
import os
import struct
import sys
import tempfile

import run

PACKETS = 'packets | filter ip.valid == 2;'

# What each query takes beside the packets themselves.
QUERIES = [
    ('a key of a distinct, of one or two columns', 'packets | map ip.src as s, ip.dst as d | distinct | filter s == 0;'),
    ('a key of a distinct, of three columns within 42 bits', 'packets | map ip.src as s, ip.dst as d, ip.len as l | distinct | filter s == 0;'),
    ('a key of a distinct, of longer columns', 'packets | map eth.src as a, eth.dst as b, ip.src as s | distinct | filter s == 0;'),
    ('a key of a reduce, of one or two columns', 'packets | map ip.src as s, 1 as n | reduce s: sum(n) width 32 | filter n == 0;'),
    ('a key of a reduce, of longer columns', 'packets | map eth.src as a, eth.dst as b, ip.src as s, 1 as n | reduce a, b, s: sum(n) width 32 | filter n == 0;'),
    ('a key of two reduces that are joined', 'packets | map ip.src as s, 1 as n | reduce s: sum(n) width 32; '
     'packets | map ip.src as s, ip.len as b | reduce s: sum(b) width 32; join s | filter n == 0;'),
    ('a row that is printed', 'packets | map ip.src as s;'),
]


# Rows of a window of reports, and how many windows there are.
ROWS, WINDOWS = 10000, 250

# Lines of a tree, of two bytes each.
NODES = 20000000


def capture(packets, folder):
    """A capture of one window, of TCP packets from as many sources, with long Ethernet addresses."""
    name = os.path.join(folder, '%d.pcap' % packets)
    with open(name, 'wb') as file:
        file.write(struct.pack('<IHHiIII', 0xa1b2c3d4, 2, 4, 0, 0, 65535, 1))
        for number in range(packets):
            ethernet = struct.pack('>HIHIH', 0xfe00, number, 0xfe01, number, 0x0800)
            ip = struct.pack('>BBHHHBBHII', 0x45, 0, 40, 0, 0, 64, 6, 0, 0x0a000000 + number, 0x0b000001)
            tcp = struct.pack('>HHIIBBHHH', 1, 2, 0, 0, 0x50, 0x10, 0, 0, 0)
            file.write(struct.pack('<IIII', 1, 0, 54, 54) + ethernet + ip + tcp)
    return name


def peak(program, measurer, text, name, folder):
    """The peak of one run, in bytes."""
    queries = os.path.join(folder, 'one.query')
    with open(queries, 'w') as file:
        file.write('window 1000000\nquery one {\n  %s\n}\n' % text)
    done = run.run_once(measurer, [program, 'plain', queries, name], os.path.join(folder, 'out'))
    if done.status:
        sys.exit('status %d of: %s' % (done.status, text))
    return done.peak_bytes


def finish_peak(program, measurer, windows, folder):
    """The peak of `finish` over as many windows of reports, and the bytes of these."""
    queries, plan, reports = (os.path.join(folder, name) for name in ('one.query', 'one.plan', 'reports'))
    with open(queries, 'w') as file:
        file.write('window 1000000\nquery one {\n  packets | map ip.src as s | filter s == 0;\n}\n')
    with open(plan, 'w') as file:
        file.write('plan query one path 0; piece 0 0 cut 0;\n')
    rows = b''.join(struct.pack('>8BQ', 1, 0, 0, 0, 0, 0, 1, 0, 0x0a000000 + number) for number in range(ROWS))
    with open(reports, 'wb') as file:
        for window in range(windows):
            file.write(rows + struct.pack('>8BQ', 1, 2, 0, 0, 0, 0, 1, 0, window))
    done = run.run_once(measurer, [program, 'finish', queries, plan, reports], os.path.join(folder, 'out'))
    if done.status:
        sys.exit('status %d of finish' % done.status)
    return done.peak_bytes, os.path.getsize(reports)


def check_peak(program, measurer, folder):
    """The peak of `check` over a plan whose tree is lines that expand a node, and the bytes of these."""
    queries, switch, certificate = (os.path.join(folder, name) for name in ('one.query', 'one.switch', 'certificate'))
    with open(queries, 'w') as file:
        file.write('window 1000000\nquery one {\n  refine ip.src: 8, 16, 32; packets | map ip.src as s, 1 as n | reduce s: sum(n) width 32;\n}\n')
    with open(switch, 'w') as file:
        file.write('stages 16; actions 8; bits 8388608; meta 4096; chain 2; slots 256, 1024, 4096;\n')
    given = [program, 'plan', switch, queries, capture(1, folder)]
    if run.run_once(measurer, given, certificate).status:
        sys.exit('no plan')
    with open(certificate) as file:
        plan = file.read().partition('tree\n')[0]
    with open(certificate, 'w') as file:
        file.write(plan + 'tree\n' + 'X\n' * NODES)
    done = run.run_once(measurer, [program, 'check', switch, queries, given[-1], certificate], os.path.join(folder, 'out'))
    return done.peak_bytes, os.path.getsize(certificate)


def main():
    words = argparse.ArgumentParser(description=__doc__, formatter_class=argparse.RawDescriptionHelpFormatter)
    words.add_argument('--sonata', default=run.USUAL, help='the program to measure (default: the one that this clone built)')
    words.add_argument('--sizes', type=int, nargs=2, default=(900000, 1100000), help='packets of the two captures')
    given = words.parse_args()
    with tempfile.TemporaryDirectory(prefix='sonata-bench-') as folder:
        measurer = run.build('measure', folder)
        one = capture(1, folder)
        captures = [capture(packets, folder) for packets in given.sizes]

        def taken(text):
            """Bytes a packet over a window of one packet, on each capture."""
            floor, *peaks = (peak(os.path.abspath(given.sonata), measurer, text, name, folder) for name in [one] + captures)
            return [(most - floor) / packets for most, packets in zip(peaks, given.sizes)]

        bare = taken(PACKETS)
        print('%-54s %4.0f to %4.0f bytes' % ('a packet', min(bare), max(bare)))
        for name, text in QUERIES:
            over = [most - packet for most, packet in zip(taken(text), bare)]
            print('%-54s %4.0f to %4.0f bytes' % (name, min(over), max(over)))
        for windows in (1, WINDOWS):
            most, size = finish_peak(os.path.abspath(given.sonata), measurer, windows, folder)
            print('%-54s %4.1f MB, %.2f times the reports' % ('`finish`, reports of %d windows, %.1f MB' % (windows, size / 1e6), most / 1e6, most / size))
        most, size = check_peak(os.path.abspath(given.sonata), measurer, folder)
        print('%-54s %4.1f MB, %.2f times the file' % ('`check`, a tree of %.1f MB' % (size / 1e6), most / 1e6, most / size))
    return 0


if __name__ == '__main__':
    sys.exit(main())
