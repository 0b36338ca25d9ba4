#!/usr/bin/env python3
"""Compares the number of rows of queries of one filter with the packets that tcpdump counts.

The expressions of tcpdump say in full what a query means: a header counts where all its bytes were captured, and at most two tags of the types
0x8100 and 0x88A8 are walked. tcpdump runs with -O, since its optimizer drops the tests of captured bytes. Needs tcpdump."""

import subprocess
import sys

import program

IP = 'ip and ip[0] & 0xf0 = 0x40 and ip[0] & 0xf >= 5 and ip[(ip[0] & 0xf) * 4 - 1] >= 0'
FIRST = IP + ' and ip[6:2] & 0x1fff = 0'
IP6 = 'ip6 and ip6[0] & 0xf0 = 0x60 and ip6[39] >= 0'
ICMP = FIRST + ' and ip[9] = 1 and icmp[3] >= 0'
ETHERNET = 1
TAG = '(ether[%d:2] = 0x8100 or ether[%d:2] = 0x88a8) and ether[%d] >= 0'
# Protocol number and bytes of the header.
TRANSPORTS = {'tcp': (6, 20), 'udp': (17, 8)}


def carried(name, place='', test=''):
    """A header of TCP or UDP right after IPv4 or IPv6, and a test of bytes of it, given their place and how many they are. Expressions of tcpdump have no bytes of
    a header after IPv6, so there they are bytes of IPv6."""
    protocol, length = TRANSPORTS[name]
    four = FIRST + ' and ip[9] = %d and %s[%d] >= 0' % (protocol, name, length - 1)
    six = IP6 + ' and ip6[6] = %d and ip6[%d] >= 0' % (protocol, 40 + length - 1)
    if test:
        begin, colon, size = place.partition(':')
        four += ' and %s[%s] %s' % (name, place, test)
        six += ' and ip6[%d%s] %s' % (40 + int(begin), colon + size, test)
    return '(%s) or (%s)' % (four, six)


# The condition of a query, the expression of tcpdump, and whether it is meant after tags too.
QUESTIONS = [
    ('pkt.len >= 0', '', False),
    ('pkt.len > 1000', 'len > 1000', False),
    ('ip.valid == 1', IP, True),
    ('tcp.valid == 1', carried('tcp'), True),
    ('udp.valid == 1', carried('udp'), True),
    ('icmp.valid == 1', ICMP, True),
    ('tcp.flags == 2', carried('tcp', '13', '= 2'), True),
    ('tcp.flags & 18 == 18', carried('tcp', '13', '& 18 = 18'), True),
    ('tcp.dport == 80', carried('tcp', '2:2', '= 80'), True),
    ('tcp.sport == 80', carried('tcp', '0:2', '= 80'), True),
    ('udp.dport == 53', carried('udp', '2:2', '= 53'), True),
    ('udp.len > 100', carried('udp', '4:2', '> 100'), True),
    ('icmp.type == 8', ICMP + ' and icmp[0] = 8', True),
    ('ip.proto == 17', IP + ' and ip[9] = 17', True),
    ('ip.ttl > 60', IP + ' and ip[8] > 60', True),
    ('ip.src == 10.77.0.1', IP + ' and ip[12:4] = 0x0a4d0001', True),
    ('ip6.valid == 1', IP6, True),
    ('ip6.plen > 20', IP6 + ' and ip6[4:2] > 20', True),
    ('ip6.next == 58', IP6 + ' and ip6[6] = 58', True),
    ('ip6.hops > 63', IP6 + ' and ip6[7] > 63', True),
    ('ip6.src & 0xffffffffffffffff == 1', IP6 + ' and ip6[16:4] = 0 and ip6[20:4] = 1', True),
    ('ip6.dst > 0xffffffffffffffff', IP6 + ' and (ip6[24:4] > 0 or ip6[28:4] > 0)', True),
]
ETHERNET_QUESTIONS = [
    ('eth.type == 0x0806', 'arp', True),
    ('eth.src == 0x020000000001', 'ether src 02:00:00:00:00:01', False),
    ('vlan.id == 5', TAG % (12, 12, 17) + ' and ether[14:2] & 0xfff = 5', False),
]


def after_tags(expression):
    """The expression without a tag, after one, or after two."""
    two = '(%s) or (%s and vlan and (%s))' % (expression, TAG % (16, 16, 21), expression)
    return '(%s) or (%s and vlan and (%s))' % (expression, TAG % (12, 12, 17), two)


def count_of(capture, expression):
    """The packets that tcpdump counts."""
    words = ['tcpdump', '-O', '-r', capture, '--count'] + ([expression] if expression else [])
    done = subprocess.run(words, capture_output=True, text=True)
    if done.returncode:
        raise program.Unanswered('tcpdump: ' + done.stderr.strip().splitlines()[-1])
    return int(done.stdout.split()[0])


def counts_of(executable, conditions, capture):
    """The rows of one query for each condition, over all windows."""
    counts = []
    for begin in range(0, len(conditions), 8):
        some = conditions[begin:begin + 8]
        text = 'window 1000000\n' + ''.join('query q%d { packets | filter %s; }\n' % (i, c) for i, c in enumerate(some))
        found = [query for _, query, _ in program.rows(program.answer(executable, text, capture))]
        counts += [found.count('q%d' % i) for i in range(len(some))]
    return counts


def compare(executable, capture):
    """The conditions on which the two differ, each with both counts, and how many were compared."""
    ethernet = program.link_of(capture) == ETHERNET
    questions = QUESTIONS + (ETHERNET_QUESTIONS if ethernet else [])
    ours = counts_of(executable, [condition for condition, _, _ in questions], capture)
    differ = []
    for (condition, expression, tagged), count in zip(questions, ours):
        theirs = count_of(capture, after_tags(expression) if tagged and ethernet else expression)
        if theirs != count:
            differ.append('%s: sonata %d, tcpdump %d' % (condition, count, theirs))
    return differ, len(questions)


def show(executable, capture):
    """Print the line of a capture and its differences. Whether there are some."""
    differ, asked = compare(executable, capture)
    print('%s: %d questions, %d differ' % (capture, asked, len(differ)), *differ, sep='\n  ')
    return bool(differ)


if __name__ == '__main__':
    sys.exit(program.check_captures(__doc__, 'tcpdump', show))
