#!/usr/bin/env python3
"""Opens a tun device, and reads and drops its packets for some seconds, so that a capture on it has raw IP packets. Needs root."""

import argparse
import fcntl
import os
import select
import struct
import time

SET_INTERFACE, TUN_WITHOUT_HEADER = 0x400454CA, 0x1001


def main():
    words = argparse.ArgumentParser(description=__doc__)
    words.add_argument('name')
    words.add_argument('--seconds', type=float, default=20)
    given = words.parse_args()
    device = os.open('/dev/net/tun', os.O_RDWR)
    fcntl.ioctl(device, SET_INTERFACE, struct.pack('16sH', given.name.encode(), TUN_WITHOUT_HEADER))
    end = time.monotonic() + given.seconds
    while time.monotonic() < end:
        if select.select([device], [], [], 0.2)[0]:
            os.read(device, 65536)


if __name__ == '__main__':
    main()
