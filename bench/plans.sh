#!/bin/sh
# Times `hsr_plan run` and `hsr_plan certify` of twenty merging units over two seconds (160,000 sends), `hsr_plan certify --pairs` of two rings
# coupled by two QuadBoxes (64 nodes, 66 links, 124 sends), and `hsr_plan sweep` of a ring of 64 with 1000 sends, each link and each node off
# in turn: on all processors, and on one. Memory is told in MB of 10^6 octets; what GNU's time calls KB has 1024.
# Usage: bench/plans.sh [HSR_PLAN], or that of bin/. It needs python3 and GNU's /usr/bin/time.
set -eu
here=$(cd "$(dirname "$0")/.." && pwd)
plan=${1:-$here/bin/hsr_plan}
work=$(mktemp -d)
trap 'rm -rf "$work"' EXIT

# ring NODES SENDERS COUNT MOVES: a ring in which some nodes sample 4000 times a second
ring() {
  python3 - "$@" <<'EOF'
import sys

nodes, senders, count = map(int, sys.argv[1:4])
quoted = lambda numbers: ", ".join(f'"n{number}"' for number in numbers)
print(f'ring = [{quoted(range(nodes))}]\nmoves = "{sys.argv[4]}"\nlife_ms = 0')
print(f'[[stream]]\nfrom = [{quoted(number * nodes // senders for number in range(senders))}]\nto = "01-0C-CD-04-00-01"')
print(f'type = "sv"\nsmp_rate = 4000\ncount = {count}')
EOF
}

# measure WHAT PLAN WORD..: the status is 2 where something is in doubt
measure() {
  what=$1 text=$2; shift 2
  /usr/bin/time -q -f '%e %U %S %M' -o "$work/told" "$@" <"$work/$text" >"$work/$what" || [ $? = 2 ]
  awk -v what="$what" '{ printf "%s: %.1f s, %.1f s of processor time, %.0f MB at most\n", what, $1, $2 + $3, $4 * 1024 / 1e6 }' "$work/told"
}

# coupled: two rings, each with 31 DANHs that send twice, and two QuadBoxes that both share
coupled() {
  python3 - <<'EOF'
quoted = lambda names: ", ".join(f'"{name}"' for name in names)
rings = {ring: [f"{ring}{number}" for number in range(31)] for ring in "ab"}
print('moves = "each send drains"\nlife_ms = 0\n[rings]')
for ring, nodes in rings.items():
    print(f'{ring} = [{quoted(nodes[:15] + ["q1"] + nodes[15:] + ["q2"])}]')
for nodes in rings.values():
    print(f'[[stream]]\nfrom = [{quoted(nodes)}]\nto = "01-0C-CD-04-00-01"\ntype = "sv"\nsmp_rate = 4000\ncount = 2')
EOF
}

ring 20 20 8000 "each moment drains" >"$work/units.toml"
ring 64 10 100 "each send drains" >"$work/ring.toml"
measure run units.toml "$plan" run
tail -n 1 "$work/run"
measure certify units.toml "$plan" certify
tail -n 1 "$work/certify"
coupled >"$work/coupled.toml"
measure pairs coupled.toml "$plan" certify --pairs
tail -n 1 "$work/pairs"
measure sweep ring.toml "$plan" sweep
measure sweep-on-one ring.toml taskset -c 0 "$plan" sweep
cmp "$work/sweep" "$work/sweep-on-one"
echo "$(wc -l <"$work/sweep") lines, the same on one: $(tail -n 3 "$work/sweep" | cut -c 1-60 | paste -sd ';')"
