#!/bin/sh
# Port scan: nmap sends a SYN to each of the ports 1 to 2000 of the victim.
#
#     port_scan.sh CAPTURE

. "$(dirname "$0")/lab.sh"

attack() { on_attacker nmap -sS -Pn -n --min-rate 1000 -p 1-2000 10.77.0.2; }

make_capture "$1"
