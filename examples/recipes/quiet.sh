#!/bin/sh
# Peace: some pings and a few connections, on which no query of the library finds anything.
#
#     quiet.sh CAPTURE

. "$(dirname "$0")/lab.sh"

here=$(dirname "$0")
prepare() {
    beside_victim python3 "$here/connections.py" serve 10.77.0.2 80 --line welcome
    await_port 80
}
attack() {
    on_attacker ping -c 4 -i 0.3 10.77.0.2
    on_attacker python3 "$here/connections.py" guess 10.77.0.2 80 --count 10 --line hello
}

make_capture "$1"
