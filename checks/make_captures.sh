#!/bin/sh
# Makes captures for the checks: the four link types, both byte orders, both units of time, cut packets, and frames of unusual form.
#
#     make_captures.sh FOLDER
#
# One run of traffic in two network namespaces is captured by several tcpdump at once; the rest is made from these captures by editcap, mergecap and
# rewrite.py. It needs root, iproute2, tcpdump, ping, curl, ncat, nmap, hping3, editcap, mergecap and python3.

here=$(cd "$(dirname "$0")" && pwd)
. "$here/../examples/recipes/lab.sh"

# Capture to a file of the folder.
dump() {
    name=$1
    shift
    capture_begins "$folder/$name.pcap" "$@"
}

devices() {
    beside_victim python3 "$here/tunnel_device.py" t0 --seconds 60
    sleep 1
    ip -n "$victim" link set t0 up
    ip -n "$victim" route add 10.99.0.0/24 dev t0
    ip -n "$victim" address add fd98::1/64 dev t0 nodad
    ip -n "$attacker" link add x0 type vxlan id 7 local 10.77.0.1 remote 10.77.0.2 dstport 4789
    ip -n "$victim" link add x0 type vxlan id 7 local 10.77.0.2 remote 10.77.0.1 dstport 4789
    for side in "$attacker 1" "$victim 2"; do
        ip -n "${side% *}" address add "10.78.0.${side#* }/24" dev x0
        ip -n "${side% *}" address add "fd00::${side#* }/64" dev "$([ "${side#* }" = 1 ] && echo a0 || echo v0)" nodad
        ip -n "${side% *}" link set x0 up
    done
}

captures_begin() {
    dump ethernet -i v0
    dump ethernet_nano -i v0 --time-stamp-precision=nano
    dump ethernet_34 -i v0 -s 34
    dump ethernet_50 -i v0 -s 50
    dump ethernet_96 -i v0 -s 96
    dump cooked -i any -y LINUX_SLL
    dump cooked_nano -i any -y LINUX_SLL --time-stamp-precision=nano
    dump cooked_48 -i any -y LINUX_SLL -s 48
    dump cooked2 -i any -y LINUX_SLL2
    dump cooked2_nano -i any -y LINUX_SLL2 --time-stamp-precision=nano
    dump cooked2_60 -i any -y LINUX_SLL2 -s 60
    dump raw -i t0
    dump raw_nano -i t0 --time-stamp-precision=nano
    dump raw_30 -i t0 -s 30
    dump vxlan_inside -i x0
    dump loopback -i lo
}

pings() {
    on_attacker ping -q -c 5 -i 0.2 10.77.0.2
    on_attacker ping -q -c 3 -i 0.2 -s 4000 10.77.0.2
    on_attacker ping -q -c 2 -i 0.2 -R 10.77.0.2
    on_attacker ping -q -c 2 -i 0.2 -t 3 10.88.4.5
    on_attacker ping -q -c 3 -i 0.2 10.78.0.2
    on_attacker ping -q -c 3 -i 0.2 fd00::2
    on_attacker ping -q -c 2 -i 0.2 -s 4000 fd00::2
    ip netns exec "$victim" timeout 5 ping -q -c 3 -i 0.2 ::1
}

connections() {
    for address in 10.77.0.2 10.78.0.2 fd00::2; do
        ip netns exec "$victim" timeout 20 python3 "$here/../examples/recipes/connections.py" serve "$address" 80 --line welcome --seconds 8 &
        begun="$begun $!"
        sleep 0.7
        on_attacker python3 "$here/../examples/recipes/connections.py" guess "$address" 80 --count 8 --line hello
    done
    on_attacker sh -c 'head -c 3000000 /dev/zero | ncat --send-only 10.77.0.2 80'
}

# A page that is asked for over ::1.
pages() {
    beside_victim python3 -m http.server --directory "$here" --bind ::1 8000
    await_port 8000
    for page in README.md make_captures.sh none; do
        ip netns exec "$victim" timeout 5 curl -g -s -o /dev/null "http://[::1]:8000/$page"
    done
}

scans() {
    on_attacker nmap -sS -Pn -n --min-rate 1000 -p 1-300 10.77.0.2
    on_attacker nmap -sU -Pn -n --min-rate 500 --max-retries 0 --host-timeout 5s -p 53,67,123,161 10.77.0.2
    on_attacker nmap -sO -Pn -n --min-rate 500 --max-retries 0 --host-timeout 5s 10.77.0.2
    on_attacker nmap -sX -Pn -n --min-rate 500 --max-retries 0 -p 1-40 10.77.0.2
    on_attacker nmap -6 -sS -Pn -n --min-rate 500 --max-retries 0 -p 75-85 fd00::2
    on_attacker nmap -6 -sU -Pn -n --min-rate 500 --max-retries 0 --host-timeout 5s -p 53,123 fd00::2
    on_attacker hping3 -q -S -p 80 --rand-source -i u2000 -c 100 10.77.0.2
    on_attacker hping3 -q --udp -s 53 -p 4000 -d 300 -i u2000 -c 60 10.77.0.2
    on_attacker hping3 -q -S -p 80 -f -d 100 -c 3 10.77.0.2
}

into_the_tunnel() {
    ip netns exec "$victim" timeout 5 ping -q -c 5 -i 0.2 -W 1 10.99.0.7
    ip netns exec "$victim" timeout 5 ping -q -c 3 -i 0.2 -W 1 fd98::7
    ip netns exec "$victim" timeout 5 hping3 -q -I t0 -S -p 80 -i u5000 -c 60 10.99.0.8
    ip netns exec "$victim" timeout 5 hping3 -q -I t0 --udp -p 53 -i u5000 -c 60 10.99.0.9
    ip netns exec "$victim" timeout 5 ping -q -c 2 -i 0.2 -s 4000 -W 1 10.99.0.7
}

traffic() {
    pings
    connections
    pages
    scans
    into_the_tunnel
    on_attacker python3 "$here/odd_frames.py" a0
}

# The other byte order, the other unit, pcapng and back, another link type, falling times, and no packet.
convert() {
    for name in ethernet ethernet_nano ethernet_50 cooked cooked2_nano raw; do
        python3 "$here/rewrite.py" swap "$folder/$name.pcap" "$folder/${name}_swapped.pcap"
    done
    python3 "$here/rewrite.py" mix "$folder/ethernet.pcap" "$folder/falling_times.pcap"
    editcap -F pcapng "$folder/ethernet.pcap" "$folder/passing.pcapng"
    editcap -F pcap "$folder/passing.pcapng" "$folder/from_pcapng.pcap"
    editcap -F nsecpcap "$folder/passing.pcapng" "$folder/from_pcapng_nano.pcap"
    rm "$folder/passing.pcapng"
    tcpdump -r "$folder/ethernet.pcap" -w "$folder/only_ip.pcap" ip 2> /dev/null
    editcap -F pcap -C 14 -T rawip "$folder/only_ip.pcap" "$folder/raw_of_ethernet.pcap"
    mergecap -a -F pcap -w "$folder/merged.pcap" "$folder/ethernet_nano.pcap" "$folder/only_ip.pcap"
    head -c 24 "$folder/ethernet.pcap" > "$folder/no_packet.pcap"
    for kind in few many; do
        python3 "$here/../bench/generate.py" "$kind" "$folder/generated_$kind.pcap" --packets 20000
    done
}

main() {
    case "${1:---help}" in
        -*) sed -n '2,$s/^# \{0,1\}//p' "$0"; exit 0 ;;
    esac
    set -e
    mkdir -p "$1"
    folder=$(cd "$1" && pwd)
    trap lab_down EXIT
    trap 'exit 1' INT TERM
    lab_up
    devices
    captures_begin
    (set +e; traffic) > "$folder/traffic.log" 2>&1 || true
    captures_end
    convert
    ls "$folder"
}

main "$@"
