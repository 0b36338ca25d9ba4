#!/bin/sh
# Host scan: nmap tries port 445 of each of the 256 addresses of 10.88.1.0/24.
#
#     host_scan.sh CAPTURE

. "$(dirname "$0")/lab.sh"

attack() { on_attacker nmap -sS -Pn -n --min-rate 300 -p 445 10.88.1.0/24; }

make_capture "$1"
