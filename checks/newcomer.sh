#!/bin/bash
# Goes the way of docs/TOUR.md, section 13, on captures that nobody has seen, and tells how long each step takes.
#
#     newcomer.sh FOLDER SEED
#     newcomer.sh --readme FOLDER [COUNT]
#
# It makes both captures by examples/recipes/hidden.py, answers which hosts, when, which packets, and how sure the plan is, by the commands that the section
# says and by nothing else, and shows beside these answers what the script hid. A person needs longer, by what is read and typed: docs/TOUR.md says how
# long. Needs sonata on the path, tcpdump and scipy (`apt-get install tcpdump python3-scipy`).
#
# With --readme it clones the last commit into a new folder and goes through the commands of README.md, "Two commands", as they stand there, or through the first
# COUNT of them. It tells what each writes and how long it takes, ends with status 1 where one fails, and says whether the first and the last, the same job without a
# proof and by the proved program, write the same. Needs the Rattle toolchain's rt and git, and for the second command as much time as README says.

readme() {
    local folder=$1 count=${2:-99} line at=0 begun failed=0
    [ -e "$folder" ] && { echo "$folder is there"; exit 1; }
    git clone -q "$(git -C "$(dirname "$0")" rev-parse --show-toplevel)" "$folder" && cd "$folder" || exit 1
    while read -r line && [ $at -lt "$count" ]; do
        at=$((at + 1))
        echo "\$ $line"
        begun=$(date +%s)
        bash -c "$line" < /dev/null > "../$(basename "$folder").$at" 2> "../$(basename "$folder").$at.err" || failed=1
        tail -n 3 "../$(basename "$folder").$at"
        echo "    $(($(date +%s) - begun)) seconds"
    done < <(awk '/^## Two commands/ { here = 1 } here && /^```bash/ { on = 1; next } on && /^```/ { exit } on' README.md)
    [ $at -gt 0 ] || { echo 'README.md has no commands'; exit 1; }
    [ $at -ge 3 ] && { cmp -s "../$(basename "$folder").1" "../$(basename "$folder").$at" && echo 'the first and the last write the same' || failed=1; }
    exit $failed
}

[ "$1" = --readme ] && [ -n "$2" ] && readme "$2" "$3"
case "${2:---help}" in -*) sed -n '2,$s/^# \{0,1\}//p' "$0" | sed '/^$/,$!b; /^case/,$d'; [ "$1" = --help ]; exit ;; esac
top=$(cd "$(dirname "$0")/.." && pwd)
whole=0

step() {
    local begun ended
    echo "\$ $1"
    begun=$(date +%s%N)
    bash -c "$1" || echo "(status $?)"
    ended=$(date +%s%N)
    whole=$((whole + ended - begun))
    printf '    %d.%01d seconds\n' $(((ended - begun) / 1000000000)) $(((ended - begun) / 100000000 % 10))
}

mkdir -p "$1" && cd "$1" || exit 1
export top
step 'python3 $top/examples/recipes/hidden.py . --seed '"$2"
cp "$top"/examples/eight/* .

echo '# Which hosts, and when?'
step 'sonata plain eight.query today.pcap > plain.txt'
step 'python3 $top/view/keys.py plain.txt --queries eight.query --capture today.pcap | tee keys.txt'
step 'sonata plain eight.query yesterday.pcap | python3 $top/view/keys.py --queries eight.query --capture yesterday.pcap'

echo '# Which packets?'
step "tcpdump -nn -r yesterday.pcap 'tcp[tcpflags] == tcp-syn' 2> /dev/null | awk '{ split(\$3, a, \".\"); print a[1] \".\" a[2] \".0.0/16\" }' | sort -u | tee networks.txt"
outside=$(sed 's/.*/ and not src net &/' networks.txt | tr -d '\n')
while read -r query rest; do
    key=${rest%%:*} windows=$(grep -o 'windows [0-9.]*' <<< "$rest" | cut -d ' ' -f 2)
    if [ "$query" = port_scan ]; then
        filter="src host ${key% *}"
    else
        # Where one source sent most of it in the windows, it is the attacker. Else the sources are drawn, and only those count that weren't clients yesterday.
        step "python3 \$top/view/packets.py today.pcap --queries eight.query --window $windows 'dst host $key' -o some.pcap
tcpdump -nn -r some.pcap 2> /dev/null | awk '{ sub(/\.[0-9]+\$/, \"\", \$3); print \$3 }' | sort | uniq -c | sort -rn | head -n 1 | tee source.txt"
        read -r most source < source.txt
        filter="dst host $key and tcp[tcpflags] == tcp-syn$outside"
        [ $((2 * most)) -gt "$(tcpdump -nn -r some.pcap 2> /dev/null | wc -l)" ] && filter="src host $source"
    fi
    step "python3 \$top/view/packets.py today.pcap '$filter' -o $query-${key// /-}.pcap"
done < keys.txt

echo '# How sure is the plan?'
step "awk '/^window/ { print } /^query/ { on = /newly_opened|port_scan|slow_connections/ } on' eight.query > refined.query
sed 's/refine ip.dst: 8, 16, 32/refine ip.dst: 16, 32/; s/at (8: [0-9]*, /at (/g' refined.query > three.query
sed '/refine/d; s/ at ([^)]*)//g' refined.query > flat.query"
for it in three flat; do
    step "sonata plan ordinary.switch $it.query yesterday.pcap --nodes 1000000 > $it.plan && sonata check ordinary.switch $it.query yesterday.pcap $it.plan"
    step "sonata run ordinary.switch $it.query $it.plan today.pcap > $it.txt; tail -n 1 $it.txt; python3 \$top/view/keys.py $it.txt --queries $it.query --capture today.pcap | cut -d : -f 1 | diff - <(grep -E '^(newly_opened|port_scan|slow_connections) ' keys.txt | cut -d : -f 1) && echo same keys"
done
step '/usr/bin/python3 $top/view/some_plan.py ordinary.switch eight.query yesterday.pcap > some.plan'
step 'sonata run ordinary.switch eight.query some.plan today.pcap > run.txt; tail -n 1 run.txt'

echo "# All commands: $((whole / 1000000000)) seconds. What was hidden:"
cat truth.txt
