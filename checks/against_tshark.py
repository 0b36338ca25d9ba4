#!/usr/bin/env python3
"""Compares each packet's 30 fields with the values that tshark prints.

The packets of a capture are put a second apart, so that a window of a second holds one packet, and four queries that read at most eight fields each print
them all. tshark reads more than sonata does: tags after the second, headers inside tunnels and inside ICMP messages, extension headers of IPv6 and what
stands after them, headers of which a part was captured. Where it does, the value that sonata should give is worked out from tshark's, and the reason is counted and printed. Any other difference is a fault. Needs tshark."""

import ipaddress
import os
import subprocess
import sys
import tempfile
from collections import Counter

import program
import rewrite

COLUMNS = ['frame.len', 'frame.cap_len', 'frame.protocols', 'eth.dst', 'eth.src', 'eth.type', 'eth.len', 'vlan.etype', 'vlan.len', 'vlan.id', 'ieee8021ad.id', 'sll.etype',
           'sll.ltype', 'ip.version', 'ip.hdr_len', 'ip.frag_offset', 'ip.len', 'ip.ttl', 'ip.proto', 'ip.src', 'ip.dst', 'tcp.srcport', 'tcp.dstport', 'tcp.seq_raw',
           'tcp.ack_raw', 'tcp.flags', 'udp.srcport', 'udp.dstport', 'udp.length', 'icmp.type', 'icmp.code', 'ipv6.version',
           'ipv6.plen', 'ipv6.nxt', 'ipv6.hlim', 'ipv6.src', 'ipv6.dst']
# sonata's fields of IPv6 and tshark's columns.
SIX = {'ip6.plen': 'ipv6.plen', 'ip6.next': 'ipv6.nxt', 'ip6.hops': 'ipv6.hlim', 'ip6.src': 'ipv6.src', 'ip6.dst': 'ipv6.dst'}
# Protocol number, name, bytes of the header, and tshark's column for each field.
TRANSPORTS = {
    6: ('tcp', 20, {'tcp.sport': 'tcp.srcport', 'tcp.dport': 'tcp.dstport', 'tcp.seq': 'tcp.seq_raw', 'tcp.ack': 'tcp.ack_raw', 'tcp.flags': 'tcp.flags'}),
    17: ('udp', 8, {'udp.sport': 'udp.srcport', 'udp.dport': 'udp.dstport', 'udp.len': 'udp.length'}),
    1: ('icmp', 4, {'icmp.type': 'icmp.type', 'icmp.code': 'icmp.code'})}
WHOLE = ['-o', 'ip.defragment:FALSE', '-o', 'tcp.desegment_tcp_streams:FALSE', '-o', 'ip.tso_support:FALSE']
TAGS = (0x8100, 0x88A8)
UNTOLD = None


def number(text):
    """The number of a value that tshark or sonata prints: decimal, hexadecimal, or an address of Ethernet, IPv4 or IPv6."""
    if '::' in text or text.count(':') > 5:
        return int(ipaddress.IPv6Address(text))
    if ':' in text:
        return int(text.replace(':', ''), 16)
    if text.count('.') == 3:
        return int.from_bytes(bytes(int(part) for part in text.split('.')), 'big')
    return int(text, 0)


def tshark_rows(capture):
    """For each packet, the list of values of each column, in the order in which they stand in the packet."""
    words = ['tshark', '-n', '-r', capture, *WHOLE, '-T', 'fields', '-E', 'occurrence=a', '-E', 'aggregator=,', '-E', 'separator=|']
    for column in COLUMNS:
        words += ['-e', column]
    done = subprocess.run(words, capture_output=True, text=True, check=True)
    return [{c: v.split(',') if v else [] for c, v in zip(COLUMNS, line.split('|'))} for line in done.stdout.splitlines()]


class Reading:
    """What sonata should give for a packet, worked out from what tshark gives, with the reasons of what was left out."""

    def __init__(self, row, link):
        self.row, self.link = row, link
        self.layers = row['frame.protocols'][0].split(':') if row['frame.protocols'] else []
        self.captured = int(row['frame.cap_len'][0])
        self.values = dict.fromkeys(program.FIELDS, 0)
        self.values['pkt.len'] = int(row['frame.len'][0])
        self.reasons = set()
        self.read()

    def first(self, column):
        return number(self.row[column][0]) if self.row[column] else None

    def read(self):
        if self.layers[:2] == ['eth', 'eth']:
            self.values.update(dict.fromkeys(program.FIELDS[1:], UNTOLD))
            self.reasons.add('untold: an ISL header before the one of Ethernet')
            return
        start = {1: self.ethernet, 101: self.raw, 113: self.cooked, 276: self.cooked2}[self.link]()
        if start is None:
            self.left_out('a cut link header')
        elif self.values['eth.type'] == 0x0800 and self.internet(start):
            self.transport(start + self.first('ip.hdr_len'), self.values['ip.proto'])
        elif self.values['eth.type'] == 0x86DD and self.internet_6(start):
            self.transport(start + 40, self.values['ip6.next'])
        self.name_what_is_inside()

    def left_out(self, reason):
        if self.row['ip.version'] or self.row['ipv6.version'] or self.row['eth.type']:
            self.reasons.add(reason)

    def ethernet(self):
        if self.captured < 14:
            return None
        self.values['eth.dst'], self.values['eth.src'] = self.first('eth.dst'), self.first('eth.src')
        is_length = self.row['eth.len'] and self.layers[1:2] != ['ethertype']
        types = [self.first('eth.len') if is_length else self.first('eth.type')] + [number(v) for v in self.row['vlan.etype'] + self.row['vlan.len'][:1]]
        numbers = [number(v) for v in self.row['ieee8021ad.id'][:1] + self.row['vlan.id']]
        if types[0] == 0x88A8 and len(types) == 1:
            types.append({'ip': 0x0800, 'ipv6': 0x86DD, 'arp': 0x0806, 'vlan': 0x8100}.get((self.layers + [''] * 5)[4]))
        elif types[0] == 0x88A8:
            types.insert(1, 0x8100)
        walked = 0
        while types[walked] in TAGS and walked < 2 and walked + 1 < len(types) and self.captured >= 18 + 4 * walked:
            walked += 1
        if walked:
            self.values['vlan.id'] = numbers[0]
        self.values['eth.type'] = types[walked]
        return 14 + 4 * walked

    def cooked(self):
        if self.captured < 16:
            return None
        self.values['eth.type'] = self.first('sll.ltype') if self.row['sll.ltype'] else self.first('sll.etype')
        if self.values['eth.type'] is None:
            self.values['eth.type'] = {'ip': 0x0800, 'ipv6': 0x86DD}.get((self.layers + ['', ''])[1])
        return 16

    def cooked2(self):
        return None if self.cooked() is None or self.captured < 20 else 20

    def raw(self):
        first = next((layer for layer in self.layers if layer in ('ip', 'ipv6')), '')
        self.values['eth.type'] = {'ip': 0x0800, 'ipv6': 0x86DD}.get(first, 0)
        if self.layers == ['raw'] and self.captured:
            self.values['eth.type'] = UNTOLD
            self.reasons.add('untold: a raw packet that is too short for tshark')
        return 0

    def internet(self, start):
        length = self.first('ip.hdr_len')
        if self.captured < start + 20 or length is None or self.captured < start + length:
            self.left_out('a cut IPv4 header')
            return False
        if self.first('ip.version') != 4 or length < 20 or not self.row['ip.src']:
            self.left_out('an IPv4 header of another version or of a wrong length')
            return self.wrong_length()
        self.values['ip.valid'] = 1
        for field in ('ip.len', 'ip.ttl', 'ip.proto', 'ip.src', 'ip.dst'):
            self.values[field] = self.first(field)
        return True

    def wrong_length(self):
        """tshark stops at a header that is longer than the declared packet. sonata doesn't look at what is declared."""
        if self.first('ip.version') == 4 and self.first('ip.hdr_len') >= 20:
            self.reasons.clear()
            for field in program.FIELDS[5:24]:
                self.values[field] = UNTOLD
            self.reasons.add('untold: an IPv4 header that is longer than the declared packet')
        return False

    def internet_6(self, start):
        if self.captured < start + 40 or self.first('ipv6.version') != 6 or not self.row['ipv6.src']:
            self.left_out('a cut IPv6 header, or one of another version')
            return False
        self.values['ip6.valid'] = 1
        for field, column in SIX.items():
            self.values[field] = self.first(column)
        return True

    def transport(self, start, protocol):
        """What stands right after the header of the network layer. A fragment of IPv6 has a header between, so it's none of these."""
        name, length, columns = TRANSPORTS.get(protocol, (None, 0, {}))
        is_six = self.values['ip6.valid']
        if name is None or is_six and name == 'icmp' or not is_six and self.first('ip.frag_offset') != 0:
            return
        if self.captured < start + length:
            self.reasons.add('a cut header of TCP, UDP or ICMP')
            return
        self.values[name + '.valid'] = 1
        before = 40 if is_six else self.first('ip.hdr_len')
        declared = 40 + self.values['ip6.plen'] if is_six else self.values['ip.len'] or 65535
        for field, column in columns.items():
            told = self.row[column] and declared >= before + 4
            self.values[field] = self.first(column) & (1 << 32) - 1 if told else UNTOLD
            if not told:
                self.reasons.add('untold: a header that reaches beyond the declared packet' if declared < before + length
                                 else 'untold: a header that tshark holds to be short or wrong')
        if name == 'tcp' and self.values['tcp.flags'] is not UNTOLD:
            self.values['tcp.flags'] &= 0xFF

    def name_what_is_inside(self):
        """Reasons for the headers that tshark reads and sonata doesn't."""
        known = self.values['ip.valid'] is not UNTOLD
        inner = known and len(self.row['ip.version']) + len(self.row['ipv6.version']) > self.values['ip.valid'] + self.values['ip6.valid']
        tags = sum(layer in ('vlan', 'ieee8021ad') for layer in self.layers)
        if self.values['ip6.valid'] and self.values['ip6.next'] not in (6, 17):
            self.reasons.add('what stands after IPv6 and is neither TCP nor UDP')
        if tags > 2 or self.values['eth.type'] in (0x9100,) or tags and self.link != 1:
            self.reasons.add('a third tag, a tag of another type, or a tag under a cooked link')
        elif inner and 'icmp' in self.layers:
            self.reasons.add('a packet that an ICMP message quotes')
        elif inner:
            self.reasons.add('a tunnel')


def fields_of(executable, capture):
    """The 30 fields of each packet, by sonata."""
    groups = [program.FIELDS[i:i + 8] for i in (0, 8, 16, 24)]
    text = 'window 1000000\n' + ''.join('query f%d { packets | filter %s; }\n' % (i, ', '.join(name + ' >= 0' for name in group)) for i, group in enumerate(groups))
    with tempfile.NamedTemporaryFile(suffix='.pcap') as file:
        rewrite.rewrite('apart', capture, file.name)
        found = program.rows(program.answer(executable, text, file.name))
    packets = [{} for _ in range(len(found) // len(groups))]
    for window, query, row in found:
        for name, value in zip(groups[int(query[1])], row):
            packets[window][name] = number(value)
    return packets


def differences(ours, reading):
    return ['%s: sonata %d, tshark %d' % (name, ours[name], value) for name, value in reading.values.items() if value is not UNTOLD and value != ours[name]]


def compare(executable, capture):
    """The differences of each packet, the packets, and the reasons with their counts."""
    link, ours, theirs = program.link_of(capture), fields_of(executable, capture), tshark_rows(capture)
    if len(ours) != len(theirs):
        return ['sonata has %d packets, tshark %d' % (len(ours), len(theirs))], len(theirs), Counter()
    found, reasons = [], Counter()
    for i, (one, row) in enumerate(zip(ours, theirs)):
        reading = Reading(row, link)
        reasons.update(reading.reasons)
        found += ['packet %d, %s (%s)' % (i + 1, difference, row['frame.protocols'][0]) for difference in differences(one, reading)]
    return found, len(ours), reasons


def show(executable, capture):
    """Print the lines of a capture, its first differences with them. Whether there are some."""
    found, packets, reasons = compare(executable, capture)
    print('%s: %d packets, %d fields differ' % (os.path.basename(capture), packets, len(found)))
    for reason, count in sorted(reasons.items()):
        print('  %d packets: %s' % (count, reason))
    print(*('  ' + line for line in found[:20]), sep='\n', end='\n' if found else '')
    return bool(found)


if __name__ == '__main__':
    sys.exit(program.check_captures(__doc__, 'tshark', show))
