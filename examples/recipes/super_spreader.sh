#!/bin/sh
# Super spreader: hping3 sends 5000 SYN packets from one source to random addresses of 10.88.0.0/16, at most ten each millisecond.
#
#     super_spreader.sh CAPTURE

. "$(dirname "$0")/lab.sh"

attack() { on_attacker hping3 -q -I a0 -S -p 80 --rand-dest -i u100 -c 5000 10.88.x.x; }

make_capture "$1"
