#!/bin/sh
# TTL anomalies: two hping3 at once send packets of one source, 10.77.0.50, with times to live of 64 and of 113; then three packets from the
# attacker with each time to live of 1 to 5.
#
#     ttl_anomalies.sh CAPTURE

. "$(dirname "$0")/lab.sh"

attack() {
    on_attacker hping3 -q -S -p 80 -a 10.77.0.50 -t 64 -i u20000 -c 100 10.77.0.2 &
    other=$!
    on_attacker hping3 -q -S -p 80 -a 10.77.0.50 -t 113 -i u20000 -c 100 10.77.0.2 || true
    wait "$other" || true
    for ttl in 1 2 3 4 5; do
        on_attacker hping3 -q --udp -p 33434 -t "$ttl" -i u1000 -c 3 10.77.0.2 || true
    done
}

make_capture "$1"
