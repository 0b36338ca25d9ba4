#!/bin/sh
# Newly opened connections over IPv6: nmap sends a SYN to 5000 ports of the victim.
#
#     ip6_opened.sh CAPTURE

. "$(dirname "$0")/lab.sh"

attack() { on_attacker nmap -6 -sS -Pn -n --min-rate 2000 --max-retries 0 -p 1-5000 fd77::2; }

make_capture "$1"
