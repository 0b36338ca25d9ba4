"""Generated captures, and the texts of the generated job."""

import struct

PACKETS = 20000
SWITCH = b'stages 16; actions 8; bits 8388608; meta 4096; chain 2; slots 256, 1024, 4096;\n'
QUERIES = b"""window 1000000
query newconn {
  refine ip.dst: 8, 16, 32;
  packets
    | filter tcp.flags == 2
    | map ip.dst as d, 1 as n
    | reduce d: sum(n) width 32
    | filter n > 400;
}
query spread {
  refine ip.dst: 8, 16, 32;
  packets
    | filter ip.valid == 1
    | map ip.dst as d, ip.src as s
    | distinct
    | map d as d, 1 as n
    | reduce d: sum(n) width 32
    | filter n > 300;
}
query slow {
  refine ip.dst: 8, 16, 32;
  packets
    | filter tcp.valid == 1
    | map ip.dst as d, ip.src as s, tcp.sport as p
    | distinct
    | map d as d, 1 as conns
    | reduce d: sum(conns) width 32;
  packets
    | filter tcp.valid == 1
    | map ip.dst as d, ip.len as total
    | reduce d: sum(total) width 48;
  join d
    | map d as d, conns * 1000000 / total as ratio
    | filter ratio > 20000 at (8: 1000, 16: 1000);
}
"""


def segment(source, target, source_port, target_port, flags, length):
    """The 54 bytes of a TCP segment over IPv4 over Ethernet."""
    return (bytes.fromhex('020000000002 020000000001 0800 4500') + length.to_bytes(2, 'big') + bytes.fromhex('00000000 40060000')
            + bytes(source) + bytes(target) + source_port.to_bytes(2, 'big') + target_port.to_bytes(2, 'big')
            + bytes(8) + bytes([0x50, flags]) + bytes(6))


def capture(number):
    """The generated capture of a number."""
    state, file = number, [struct.pack('<IHHIIII', 0xA1B2C3D4, 2, 4, 0, 0, 262144, 1)]

    def drawn():
        nonlocal state
        state = (state * 6364136223846793005 + 1442695040888963407) % (1 << 64)
        return state >> 33

    for i in range(PACKETS):
        place = i % 5000
        c = place // 10
        if place % 10 == 0:
            length, packet = 60, segment((172, 16, c // 256, c % 256), (10, 1, 2, 3), 1024 + c, 80, 2, 60)
        elif place % 10 == 1:
            length, packet = 40, segment((192, 168, 0, c % 4 + 1), (10, 9, 8, 7), 2048 + c, 80, 16, 40)
        else:
            u = drawn()
            v = drawn()
            length, packet = 1040, segment((30, 0, 0, v % 16 + 1), (20, 0, u % 8, u // 8 % 8), 4096 + v // 16 % 1024, 443, 16, 1040)
        file.append(struct.pack('<IIII', 1 + i // 5000, place * 200, 54, 14 + length) + packet)
    return b''.join(file)
