"""Captures: their header, records, and the fields of a packet."""

import struct

FIELDS = [
    ('pkt.len', 32), ('eth.dst', 48), ('eth.src', 48), ('eth.type', 16), ('vlan.id', 12), ('ip.valid', 1), ('ip.len', 16), ('ip.ttl', 8),
    ('ip.proto', 8), ('ip.src', 32), ('ip.dst', 32), ('tcp.valid', 1), ('tcp.sport', 16), ('tcp.dport', 16), ('tcp.seq', 32),
    ('tcp.ack', 32), ('tcp.flags', 8), ('udp.valid', 1), ('udp.sport', 16), ('udp.dport', 16), ('udp.len', 16), ('icmp.valid', 1),
    ('icmp.type', 8), ('icmp.code', 8), ('ip6.valid', 1), ('ip6.plen', 16), ('ip6.next', 8), ('ip6.hops', 8), ('ip6.src', 128), ('ip6.dst', 128)]
NUMBERS = {name: number for number, (name, width) in enumerate(FIELDS)}
WIDTHS = dict(FIELDS)
ADDRESSES = {'ip.src', 'ip.dst', 'ip6.src', 'ip6.dst'}
LINKS = {1, 101, 113, 276}
TAGS = {0x8100, 0x88A8}
LARGEST_PACKET = 262144


class BadHeader(Exception):
    """A refused capture header: its kind and byte."""


def header(file):
    """The byte order, nanoseconds of a fraction, and link type of a capture."""
    if len(file) < 24:
        raise BadHeader('Short', 0)
    for order in '<>':
        magic, major, minor = struct.unpack_from(order + 'IHH', file)
        if magic in (0xA1B2C3D4, 0xA1B23C4D):
            break
    else:
        raise BadHeader('Magic', 0)
    if (major, minor) != (2, 4):
        raise BadHeader('Version', 4)
    link = struct.unpack_from(order + 'I', file, 20)[0] & 0xFFFF
    if link not in LINKS:
        raise BadHeader('Link', 20)
    return order, 1000 if magic == 0xA1B2C3D4 else 1, link


def records(file, order, fraction_ns):
    """The time, wire length and bytes of each record, and how the records end: None, or a kind and a byte."""
    found, at = [], 24
    while at < len(file):
        if at + 16 > len(file):
            return found, ('Cut', at)
        seconds, fraction, captured, wire = struct.unpack_from(order + '4I', file, at)
        if captured > LARGEST_PACKET:
            return found, ('Bad', at)
        if at + 16 + captured > len(file):
            return found, ('Cut', at)
        found.append((seconds * 10**9 + fraction * fraction_ns, wire, file[at + 16:at + 16 + captured]))
        at += 16 + captured
    return found, None


def number(bytes_, at, length):
    return int.from_bytes(bytes_[at:at + length], 'big')


def ethernet(packet, values):
    """Where the bytes after an Ethernet header and its tags begin, or None."""
    if len(packet) < 14:
        return None
    values['eth.dst'], values['eth.src'], kind = number(packet, 0, 6), number(packet, 6, 6), number(packet, 12, 2)
    at, tags = 14, 0
    while kind in TAGS and tags < 2 and at + 4 <= len(packet):
        if tags == 0:
            values['vlan.id'] = number(packet, at, 2) & 0xFFF
        kind, at, tags = number(packet, at + 2, 2), at + 4, tags + 1
    values['eth.type'] = kind
    return at


def cooked(packet, values, length, place):
    if len(packet) < length:
        return None
    values['eth.type'] = number(packet, place, 2)
    return length


def raw(packet, values):
    half = packet[0] >> 4 if packet else 0
    values['eth.type'] = {4: 0x0800, 6: 0x86DD}.get(half, 0)
    return 0


def link_end(packet, link, values):
    if link == 1:
        return ethernet(packet, values)
    if link == 113:
        return cooked(packet, values, 16, 14)
    if link == 276:
        return cooked(packet, values, 20, 0)
    return raw(packet, values)


def internet(packet, at, values):
    """The protocol that an IPv4 header carries and where its bytes begin, or None where there is no such header. Of a later fragment the protocol is None."""
    if values['eth.type'] != 0x0800 or len(packet) < at + 20:
        return None
    length = (packet[at] & 15) * 4
    if packet[at] >> 4 != 4 or length < 20 or len(packet) < at + length:
        return None
    values['ip.valid'], values['ip.len'] = 1, number(packet, at + 2, 2)
    values['ip.ttl'], values['ip.proto'] = packet[at + 8], packet[at + 9]
    values['ip.src'], values['ip.dst'] = number(packet, at + 12, 4), number(packet, at + 16, 4)
    is_first = number(packet, at + 6, 2) & 0x1FFF == 0
    return packet[at + 9] if is_first else None, at + length


def internet_6(packet, at, values):
    """The next header of an IPv6 header and where its bytes begin, or None where there is no such header."""
    if values['eth.type'] != 0x86DD or len(packet) < at + 40 or packet[at] >> 4 != 6:
        return None
    values['ip6.valid'], values['ip6.plen'] = 1, number(packet, at + 4, 2)
    values['ip6.next'], values['ip6.hops'] = packet[at + 6], packet[at + 7]
    values['ip6.src'], values['ip6.dst'] = number(packet, at + 8, 16), number(packet, at + 24, 16)
    return packet[at + 6], at + 40


def transport(packet, at, protocol, values):
    left = len(packet) - at
    if protocol == 6 and left >= 20:
        values['tcp.valid'], values['tcp.sport'], values['tcp.dport'] = 1, number(packet, at, 2), number(packet, at + 2, 2)
        values['tcp.seq'], values['tcp.ack'] = number(packet, at + 4, 4), number(packet, at + 8, 4)
        values['tcp.flags'] = packet[at + 13]
    elif protocol == 17 and left >= 8:
        values['udp.valid'], values['udp.sport'] = 1, number(packet, at, 2)
        values['udp.dport'], values['udp.len'] = number(packet, at + 2, 2), number(packet, at + 4, 2)
    elif protocol == 1 and left >= 4 and values['ip.valid']:
        values['icmp.valid'], values['icmp.type'], values['icmp.code'] = 1, packet[at], packet[at + 1]


def fields(packet, wire, link):
    """The number of each field of a packet, by name."""
    values = dict.fromkeys(NUMBERS, 0)
    values['pkt.len'] = wire
    at = link_end(packet, link, values)
    if at is None:
        return values
    carried = internet(packet, at, values) or internet_6(packet, at, values)
    if carried is not None:
        protocol, place = carried
        transport(packet, place, protocol, values)
    return values
