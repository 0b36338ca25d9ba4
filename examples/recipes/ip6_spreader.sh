#!/bin/sh
# Super spreader over IPv6: nmap sends a SYN to 4096 addresses of fd88::/32.
#
#     ip6_spreader.sh CAPTURE

. "$(dirname "$0")/lab.sh"

attack() { on_attacker nmap -6 -sS -Pn -n --min-rate 2000 --max-retries 0 -p 80 fd88:0:2:3::/116; }

make_capture "$1"
