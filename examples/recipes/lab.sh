# A lab of two network namespaces, an attacker and a victim, joined by a veth pair. Recipes source this file; it is no command.
#
# The attacker is 10.77.0.1 and fd77::1. The victim is 10.77.0.2 and fd77::2, and answers for each address of 10.88.0.0/16 and fd88::/32 too. Nothing leaves the two namespaces. Both are
# removed at the end, and only processes that the recipe began are ended. It needs root, iproute2 and tcpdump.

attacker=sonata_attacker_$$
victim=sonata_victim_$$
begun=
captures=

on_attacker() { timeout 30 ip netns exec "$attacker" "$@"; }

# Run a program on the victim's side until the recipe ends.
beside_victim() {
    ip netns exec "$victim" "$@" > /dev/null 2>&1 &
    begun="$begun $!"
}

# Try a command each tenth of a second until it succeeds, for ten seconds.
await() {
    tries=0
    until "$@"; do
        tries=$((tries + 1))
        [ "$tries" -lt 100 ] || return 1
        sleep 0.1
    done
}

# Whether a program listens at this port of the victim.
is_open() { [ -n "$(ip netns exec "$victim" ss -ltnH "sport = :$1")" ]; }

await_port() { await is_open "$1"; }

lab_up() {
    ip netns add "$attacker"
    ip netns add "$victim"
    ip link add a0 netns "$attacker" type veth peer name v0 netns "$victim"
    ip -n "$attacker" address add 10.77.0.1/24 dev a0
    ip -n "$victim" address add 10.77.0.2/24 dev v0
    for side in "$attacker lo" "$attacker a0" "$victim lo" "$victim v0"; do
        ip -n "${side% *}" link set "${side#* }" up
    done
    ip -n "$victim" route add local 10.88.0.0/16 dev lo
    ip -n "$victim" route add default via 10.77.0.1
    ip -n "$attacker" route add 10.88.0.0/16 via 10.77.0.2
    ip -n "$attacker" address add fd77::1/64 dev a0 nodad
    ip -n "$victim" address add fd77::2/64 dev v0 nodad
    ip -n "$victim" route add local fd88::/32 dev lo
    ip -n "$attacker" route add fd88::/32 via fd77::2
}

lab_down() {
    for process in $begun; do
        kill "$process" 2> /dev/null || true
    done
    ip netns del "$attacker" 2> /dev/null || true
    ip netns del "$victim" 2> /dev/null || true
}

# Capture to a file on the victim's side, with further words of tcpdump, and wait until it has told that it listens.
capture_begins() {
    file=$1
    shift
    : > "$file.log"
    ip netns exec "$victim" tcpdump -Z root -U -w "$file" "$@" 2> "$file.log" &
    captures="$captures $!"
    await grep -q 'listening on' "$file.log"
    rm -f "$file.log"
}

# End all captures.
captures_end() {
    sleep 1
    kill -INT $captures
    wait $captures || true
}

# Make the capture of what the function `attack` does, and of what `prepare` begins before it.
make_capture() {
    case "${1:---help}" in
        -*) sed -n '2,$s/^# \{0,1\}//p' "$0"; exit 0 ;;
    esac
    set -e
    trap lab_down EXIT
    trap 'exit 1' INT TERM
    lab_up
    prepare
    capture_begins "$1" -i v0 -s 128
    attack > /dev/null 2>&1 || true
    captures_end
}

prepare() { :; }
