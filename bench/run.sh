#!/usr/bin/env bash
# Measures hsr_bench from arguments to report: `run` of rings of 64 and of 16 DANHs in which each send to a group is drained, with more and
# more sends; of a document of 50,000 steps of the clock; `run --transcript` and `audit` of what it wrote; `threads`; and what each part of the
# report adds to `run`. For each: processor time, most memory in MB of 10^6 octets (what GNU's time calls KB has 1024), and octets an entry.
# Usage: bench/run.sh [HSR_BENCH [HSR_VIEW]], or those of bin/. It needs GNU's /usr/bin/time.
set -eu
top=$(cd "$(dirname "${BASH_SOURCE[0]}")/.." && pwd)
bench=${1:-$top/bin/hsr_bench} view=${2:-$top/bin/hsr_view}
work=$(mktemp -d); trap 'rm -rf "$work"' EXIT
"$bench" run < "$top/examples/scenarios/ring3.toml" > /dev/null # builds the program, where that is to be done

# ring NODES SENDS PAYLOAD [STEP]: a ring of DANHs, in which the first sends to all, each send drained, after a step
ring() {
  awk -v n="$1" -v sends="$2" -v payload="$3" -v step="${4-}" 'BEGIN {
    print "node = ["
    for (i = 0; i < n; i++) printf "  {name=\"n%d\", role=\"danh\", mac=\"02-00-00-00-00-%02X\"},\n", i, i + 1
    print "]\nlink = ["
    for (i = 0; i < n; i++) printf "  {ends=[\"n%d.B\", \"n%d.A\"]},\n", i, (i + 1) % n
    print "]\nstep = [" step
    for (i = 0; i < sends; i++) print "  {do=\"send\", node=\"n0\", to=\"01-00-5E-00-00-01\", type=0x0800, payload=\"" payload "\"},\n  {do=\"drain\"},"
    print "]"
  }'
}

# measure WHAT ENTRIES INPUT OUTPUT PROGRAM WORD..
measure() {
  local what=$1 entries=$2 input=$3 output=$4; shift 4
  /usr/bin/time -q -f '%U %S %M' -o "$work/told" "$@" < "$input" > "$output" || [ $? = 2 ]
  awk -v what="$what" -v entries="$entries" '{
    printf "%s: %.2f s of processor time, %.0f MB at most", what, $1 + $2, $3 * 1024 / 1e6
    print entries ? sprintf(", %d entries, %d octets an entry", entries, $3 * 1024 / entries) : ""
  }' "$work/told"
}

# flags WHAT INPUT: `run` without and with each flag, the least of five
flags() {
  local flag
  mkdir -p "$work/tables"
  for flag in "" --load --latency --names --deliveries --needed --network "--csv $work/tables"; do
    : > "$work/times"
    for _ in {1..5}; do
      /usr/bin/time -q -a -f '%U %S' -o "$work/times" "$bench" run $flag < "$2" > "$work/report" || [ $? = 2 ]
    done
    echo "$1, run ${flag% *}: $(awk '{ print $1 + $2 }' "$work/times" | sort -n | head -1) s of processor time"
  done
}

for sends in 1000 2000 4000 8000 16000; do
  ring 64 $sends AABB > "$work/64.toml"
  measure "ring of 64, $sends sends" $((sends * 129)) "$work/64.toml" "$work/report" "$bench" run
done
for sends in 10000 20000 50000; do
  ring 16 $sends AABB > "$work/16.toml"
  measure "ring of 16, $sends sends" $((sends * 33)) "$work/16.toml" "$work/report" "$bench" run
done
{ ring 3 0 AABB | sed '/^step/,$d'; awk 'BEGIN { print "step = ["; for (i = 0; i < 50000; i++) printf "  {do=\"clock\", at=%d},\n", i; print "]" }'; } > "$work/clock.toml"
measure "document of 50,000 steps of the clock" 0 "$work/clock.toml" "$work/report" "$bench" run
for sends in 500 1000; do
  ring 64 $sends "$(printf 'AB%.0s' {1..125})" > "$work/$sends.toml"
  measure "ring of 64, $sends sends of 125 octets, transcript" $((sends * 129)) "$work/$sends.toml" "$work/transcript" "$bench" run --transcript
  measure "audit of that transcript, $(($(stat -c %s "$work/transcript") / 1000000)) MB" $((sends * 129)) "$work/transcript" "$work/report" "$bench" audit
done
measure "hsr_view devices of it" 0 "$work/transcript" "$work/page" "$view" devices
measure "hsr_view capture of it" 0 "$work/transcript" "$work/page" "$view" capture
ring 64 1000 AABB > "$work/64.toml"
measure "ring of 64, 1000 sends, by threads" $((1000 * 129)) "$work/64.toml" "$work/report" "$bench" threads
ring 16 6061 AABB > "$work/whole.toml"
flags "ring of 16, 200,013 entries" "$work/whole.toml"
ring 16 12500 AABB '{do="cut", link=5},' > "$work/cut.toml"
flags "ring of 16 with a cut, 200,000 entries" "$work/cut.toml"
