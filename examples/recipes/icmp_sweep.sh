#!/bin/sh
# ICMP sweep: nmap sends an echo request to each of the 256 addresses of 10.88.2.0/24.
#
#     icmp_sweep.sh CAPTURE

. "$(dirname "$0")/lab.sh"

attack() { on_attacker nmap -sn -PE -n --min-rate 300 10.88.2.0/24; }

make_capture "$1"
