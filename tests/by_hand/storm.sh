#!/usr/bin/env bash
# A storm: in two rings joined by two QuadBoxes, with small tables, four sends to a group before one drain settle; of five the copies
# push each other out of the tables and circle for ever, which the limit of a drain ends. Last line or fault, time and memory of both.
set -eu
top=$(cd "$(dirname "${BASH_SOURCE[0]}")/../.." && pwd)
work=$(mktemp -d); trap 'rm -rf "$work"' EXIT
storm() {
  echo 'node = [
  {name="n0", role="danh", mac="02-00-00-00-00-01"}, {name="n1", role="danh", mac="02-00-00-00-00-02"},
  {name="q0", role="quadbox"}, {name="q1", role="quadbox"},
]
link = [
  {ends=["n0.B", "q0.A"]}, {ends=["q0.B", "q1.A"]}, {ends=["q1.B", "n0.A"]},
  {ends=["n1.B", "q0.C"]}, {ends=["q0.D", "q1.C"]}, {ends=["q1.D", "n1.A"]},
]
step = ['
  for _ in $(seq "$1"); do echo '  {do="send", node="n0", to="01-00-5E-00-00-01", type=0x0800, payload="AABB"},'; done
  echo '  {do="drain"},
]'
}
for sends in 4 5; do
  storm $sends > "$work/storm.toml"
  /usr/bin/time -f "%U s of processor time, %M KB at most" -o "$work/took" "$top/bin/hsr_bench" run --table small < "$work/storm.toml" > "$work/told" 2>&1 || true
  echo "$sends sends: $(tail -1 "$work/told"), $(tail -1 "$work/took")"
done
