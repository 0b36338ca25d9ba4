"""Says what a file is, by trying it as each of those that `sonata` reads or writes, as file(1) does it: by the first bytes, or by the reader of its texts."""

import os
import struct

import frames
from texts import costs, grammar, plans, switches, tokens

MAGICS = {bytes.fromhex('0a0d0d0a'): 'pcapng', bytes.fromhex('1f8b'): 'gzip', bytes.fromhex('fd377a585a00'): 'xz', bytes.fromhex('28b52ffd'): 'zstd',
          b'BZh': 'bzip2', b'PK\x03\x04': 'zip'}
LINKS = {1: 'Ethernet', 101: 'raw IP', 113: 'Linux cooked', 276: 'Linux cooked, version 2'}
# What a file of each role must be, and the words for it.
ROLES = {'SWITCH': ('switch',), 'QUERIES': ('queries',), 'PLAN': ('plan', 'plan with its tree'), 'PLANTREE': ('plan with its tree',), 'REPORTS': ('reports',),
         'TRAIN': ('capture',), 'CAPTURE': ('capture',)}
MEANT = {'SWITCH': 'a switch text', 'QUERIES': 'a query text', 'PLAN': 'a plan', 'PLANTREE': 'a plan with its cost and its tree', 'REPORTS': 'report frames of `emit`',
         'TRAIN': 'a training capture', 'CAPTURE': 'a capture'}
NAMES = {'switch': 'a switch text', 'queries': 'a query text', 'plan': 'a plan', 'plan with its tree': 'a plan with its tree', 'reports': 'report frames of `emit`',
         'capture': 'a capture of classic pcap', 'pcapng': 'a capture of pcapng', 'empty': 'empty', 'text': 'a text that is none of those that `sonata` reads',
         'other': 'none of the files that `sonata` reads', 'answers': 'what `sonata` answered', 'missing': 'not there', 'folder': 'a folder', 'closed': 'not readable',
         'stream': 'no file that can be read twice'}


def is_accepted(reader, text):
    try:
        reader(text)
        return True
    except tokens.Fault:
        return False


def tree_of(text):
    reader = costs.TreeReader(text)
    reader.plan()
    reader.tree()


def text_kind(text):
    """The kind of a text: the one whose reader accepts it, else the one that begins like it."""
    for kind, reader in (('queries', grammar.parse), ('switch', switches.parse), ('plan with its tree', tree_of), ('plan', plans.parse)):
        if is_accepted(reader, text):
            return 'plan with its tree' if kind == 'plan' and b'\ntree' in text else kind
    try:
        first = grammar.Reader(text).now.value
    except (UnicodeDecodeError, tokens.Fault):
        return 'other'
    if first == 'plan':
        return 'plan with its tree' if b'\ntree' in text else 'plan'
    if first == 'window':
        return 'answers' if b'\ntotal windows ' in text or b' emitted ' in text else 'queries'
    if first in switches.RANGES:
        return 'switch'
    return 'text' if all(byte >= 32 or byte in b'\t\r\n' for byte in text[:4096]) else 'other'


def is_capture(head):
    return len(head) == 24 and any(struct.unpack(order + 'I', head[:4])[0] in (0xA1B2C3D4, 0xA1B23C4D) for order in '<>')


def kind_of(name):
    """What a file is, in one of the words of NAMES, or the name of what compressed it."""
    if os.path.isdir(name):
        return 'folder'
    if not os.path.exists(name):
        return 'missing'
    if not os.path.isfile(name):
        return 'stream'
    try:
        with open(name, 'rb') as file:
            head = file.read(24)
            if not head:
                return 'empty'
            if is_capture(head):
                return 'capture'
            packed = next((kind for magic, kind in MAGICS.items() if head.startswith(magic)), None)
            if packed:
                return packed
            if len(head) >= 8 and frames.is_head(*head[:8]):
                return 'reports'
            return text_kind(head + file.read(1 << 24))
    except OSError:
        return 'closed'


def words_of(kind):
    return NAMES.get(kind, 'compressed by ' + kind)


def link_of(name):
    """The link type of a capture."""
    with open(name, 'rb') as file:
        head = file.read(24)
    order = next(order for order in '<>' if struct.unpack(order + 'I', head[:4])[0] in (0xA1B2C3D4, 0xA1B23C4D))
    return struct.unpack(order + 'I', head[20:24])[0] & 0xFFFF
