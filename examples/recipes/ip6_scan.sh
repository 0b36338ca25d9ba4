#!/bin/sh
# Scan of a /64: nmap tries port 443 of 256 addresses of fd88:0:0:7::/64, and of four addresses of another network beside it.
#
#     ip6_scan.sh CAPTURE

. "$(dirname "$0")/lab.sh"

attack() {
    on_attacker nmap -6 -sS -Pn -n --max-rate 100 -p 443 fd88:0:0:8::/126
    on_attacker nmap -6 -sS -Pn -n --max-rate 100 -p 443 fd88:0:0:7::/120
}

make_capture "$1"
