#!/usr/bin/env python3
"""Writes what two switches saw of one scan, FOLDER/east.pcap and FOLDER/west.pcap, and a picture of it, FOLDER/two_switches.svg.

    two_switches.py FOLDER

For five seconds 10.77.0.1 tries port 445 of 80 addresses a second. Those with an even last number lie behind the switch in the east, the others behind the one
in the west, and every tenth of them is seen by both. So each sees fewer than 50 addresses a second, where `examples/queries/host_scan.query` begins to tell, and
both together see 80. Beside the scan each has some connections of its own. The one in the west began to record half a second later. Needs nothing but Python."""

import os
import sys

from written import ATTACKER, connection, refused, write_captures

SCANNED, GAP, LATER, SECONDS, THRESHOLD = 400, 12_500, 500_000, 5, 50
HEIGHT, WIDTH = 3, 22
COLORS = {'east': '#4c78a8', 'west': '#f58518', 'both': '#54a24b'}


def tries():
    """The packets of each try, and its number."""
    return [(i, refused((10, 88, 1 + i // 200, i % 200), 50000, 445, i * GAP)) for i in range(SCANNED)]


def seen_by(side, first_port, begun):
    """What a switch sees from a time on: the tries of its side, each tenth try of the other one, and ten connections a second."""
    packets = [packet for i, try_ in tries() if i % 2 == side or i % 10 == 1 - side for packet in try_]
    packets += [packet for i in range(50) for packet in connection(first_port + i, 80, i * 100_000, 7)]
    return [packet for packet in packets if packet[0] >= begun]


def addresses(packets, second):
    """The addresses that the attacker tried in a second."""
    return {packet[16:20] for when, packet in packets if when // 1_000_000 == second and packet[12:16] == bytes(ATTACKER) and packet[22:24] == (445).to_bytes(2, 'big')}


def picture(captures):
    """Bars of how many addresses each switch and both saw in each second, beside the threshold."""
    seen = {name: [addresses(packets, second) for second in range(SECONDS)] for name, packets in captures}
    seen['both'] = [east | west for east, west in zip(seen['east'], seen['west'])]
    base, right = 30 + 85 * HEIGHT, 60 + SECONDS * 4 * WIDTH
    lines = ['<svg xmlns="http://www.w3.org/2000/svg" width="%d" height="%d" font-family="sans-serif" font-size="12">' % (right + 120, base + 40),
             '<rect width="100%" height="100%" fill="white"/>', '<text x="10" y="15">addresses that 10.77.0.1 tries in each second</text>']
    lines += ['<text x="%d" y="%d" fill="%s">%s</text>' % (right + 10, 60 + 20 * place, COLORS[name], {'both': 'both together'}.get(name, 'seen in the ' + name))
              for place, name in enumerate(seen)]
    bars = [(50 + (second * 4 + place) * WIDTH, len(found), COLORS[name]) for place, (name, counts) in enumerate(seen.items()) for second, found in enumerate(counts)]
    lines += ['<rect x="%d" y="%d" width="%d" height="%d" fill="%s"/>' % (left, base - count * HEIGHT, WIDTH - 4, count * HEIGHT, color) for left, count, color in bars]
    lines += ['<text x="%d" y="%d">%d</text>' % (50 + (second * 4 + 1) * WIDTH, base + 18, second) for second in range(SECONDS)]
    lines.append('<path d="M40 %d H%d" stroke="black" stroke-dasharray="6 3"/>' % (base - THRESHOLD * HEIGHT, right))
    lines.append('<text x="%d" y="%d">threshold %d</text>' % (right + 10, base - THRESHOLD * HEIGHT + 4, THRESHOLD))
    # The numbers stand over the threshold's line, each on a white ground of its own.
    for left, count, _ in bars:
        lines.append('<rect x="%d" y="%d" width="15" height="12" fill="white"/>' % (left, base - count * HEIGHT - 13))
        lines.append('<text x="%d" y="%d">%d</text>' % (left, base - count * HEIGHT - 3, count))
    return '\n'.join(lines + ['<path d="M40 %d H%d" stroke="black"/>' % (base, right), '</svg>']) + '\n'


if __name__ == '__main__':
    CAPTURES = [('east', seen_by(0, 40000, 0)), ('west', seen_by(1, 41000, LATER))]
    write_captures(__doc__, CAPTURES)
    with open(os.path.join(sys.argv[1], 'two_switches.svg'), 'w') as out:
        out.write(picture(CAPTURES))
