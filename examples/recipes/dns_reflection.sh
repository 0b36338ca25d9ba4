#!/bin/sh
# DNS reflection: tcpreplay sends 1500 DNS answers of 1200 bytes from 40 reflectors to the victim, 1000 a second.
#
#     dns_reflection.sh CAPTURE

. "$(dirname "$0")/lab.sh"

here=$(dirname "$0")
attack() {
    answers=$(mktemp)
    python3 "$here/dns_answers.py" "$answers"
    on_attacker tcpreplay -i a0 --pps 1000 "$answers"
    rm -f "$answers"
}

make_capture "$1"
