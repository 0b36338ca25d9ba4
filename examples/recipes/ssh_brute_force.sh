#!/bin/sh
# SSH brute force: 60 connections one after another to port 22 of the victim, each with one line and closed.
#
#     ssh_brute_force.sh CAPTURE

. "$(dirname "$0")/lab.sh"

here=$(dirname "$0")
prepare() {
    beside_victim python3 "$here/connections.py" serve 10.77.0.2 22 --line SSH-2.0-lab
    await_port 22
}
attack() { on_attacker python3 "$here/connections.py" guess 10.77.0.2 22 --count 60 --line SSH-2.0-guess; }

make_capture "$1"
