#!/usr/bin/env bash
# GOOSE and sampled values of plans under tshark: of each example of a plan, and of COUNT random plans from SEED on (40, 1), the scenario is
# made and played, its frames are written as a capture, and tshark -V has to read each frame to its end, without an expert's remark.
# tests/by_hand/payloads.sh [COUNT [SEED [FOLDER]]], with the programs of bin/ or of a folder. It needs tshark (Debian: apt-get install tshark).
set -eu
top=$(cd "$(dirname "${BASH_SOURCE[0]}")/../.." && pwd)
count=${1:-40} seed=${2:-1} programs=${3:-$top/bin}
work=$(mktemp -d); trap 'rm -rf "$work"' EXIT
cp "$top"/examples/first_plan.toml "$top"/examples/plans/*.toml "$work"
python3 - "$top/tests/second" "$work" "$count" "$seed" <<'PY'
import random, sys
sys.path.insert(0, sys.argv[1])
import random_plans
work, count, seed = sys.argv[2], int(sys.argv[3]), int(sys.argv[4])
for number in range(seed, seed + count):
    with open(f"{work}/random{number}.toml", "w") as out:
        out.write(random_plans.text(random_plans.random_plan(random.Random(number))))
PY
plans=0 faults=0 frames=0 wrong=0
for plan in "$work"/*.toml; do
  name=$(basename "$plan" .toml)
  if ! "$programs/hsr_plan" < "$plan" > "$work/scenario" 2> "$work/fault"; then
    faults=$((faults + 1)); continue
  fi
  "$programs/hsr_bench" run --transcript < "$work/scenario" > "$work/transcript" || [ $? = 2 ]
  "$programs/hsr_view" capture < "$work/transcript" > "$work/$name.pcapng"
  plans=$((plans + 1))
  frames=$((frames + $(tshark -r "$work/$name.pcapng" -Y 'goose || sv' -T fields -e frame.number 2> "$work/errors" | wc -l)))
  # the comments of the capture itself are remarks too, of the lowest severity
  bad=$(tshark -r "$work/$name.pcapng" -V -Y '(goose || sv) && (_ws.malformed || _ws.expert.severity > 0x00100000)' 2> "$work/errors" | head -40)
  if [ -n "$bad" ]; then
    wrong=$((wrong + 1)); echo "$name:"; echo "$bad"
  fi
done
echo "$plans plans, $faults faults, $frames frames of GOOSE and sampled values; $wrong plans with a remark of tshark"
[ "$wrong" = 0 ] && [ "$frames" -gt 0 ]
