#!/bin/sh
# Slow connections: 200 connections to port 80 of the victim, held for four seconds, each with one short line a second.
#
#     slow_connections.sh CAPTURE

. "$(dirname "$0")/lab.sh"

here=$(dirname "$0")
prepare() {
    beside_victim python3 "$here/connections.py" serve 10.77.0.2 80
    await_port 80
}
attack() { on_attacker python3 "$here/connections.py" slow 10.77.0.2 80 --count 200 --seconds 4 --line "X-a: b"; }

make_capture "$1"
