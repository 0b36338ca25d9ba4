#!/bin/sh
# Top talkers: the attacker sends 20 megabytes over one connection to the victim.
#
#     top_talkers.sh CAPTURE

. "$(dirname "$0")/lab.sh"

here=$(dirname "$0")
prepare() {
    beside_victim python3 "$here/connections.py" serve 10.77.0.2 9000
    await_port 9000
}
attack() { on_attacker sh -c "head -c 20000000 /dev/zero | ncat --send-only 10.77.0.2 9000"; }

make_capture "$1"
