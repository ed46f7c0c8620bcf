#!/usr/bin/env bash
# Measures `hsr_bench node` over 200,000 lines: sends of about 46 octets a line, and then mixed lines with 20 octets of
# payload, of which half are arrivals and a third of those second copies. Three runs each: processor time, and most memory in MB of 10^6
# octets (what GNU's time calls KB has 1024).
# Usage: bench/node.sh [LINES [HSR_BENCH]], or that of bin/. It needs GNU's /usr/bin/time.
set -eu
top=$(cd "$(dirname "${BASH_SOURCE[0]}")/.." && pwd)
lines=${1:-200000} bench=${2:-$top/bin/hsr_bench}
"$bench" < /dev/null > /dev/null # builds the program, where that is to be done
work=$(mktemp -d); trap 'rm -rf "$work"' EXIT
payload=ABABABABABABABABABABABABABABABABABABABAB
awk -v n="$lines" 'BEGIN {
  for (i = 0; i < n; i++) { line = "send " i " 02-00-00-00-00-02 0800 "; while (length(line) < 44) line = line "AB"; print line }
}' > "$work/sends"
awk -v n="$lines" -v p="$payload" 'BEGIN {
  for (i = 0; i < n; i++) {
    at = int(i / 100)
    if (i % 2 == 0) print "send " at " 02-00-00-00-00-02 0800 " p
    # numbers 0, 1, 1, 2, 3, 3, ..: of three arrivals the third is the second copy of the second
    else { k = int(i / 2); number = 2 * int(k / 3) + (k % 3 > 0); port = k % 3 == 2 ? "B" : "A"
      printf "arrive %d %s 020000000001020000000002892F%s01A%04X0800%s\n", at, port, port == "A" ? "0" : "1", number % 65536, p }
  }
}' > "$work/mixed"
for input in sends mixed; do
  for run in 1 2 3; do
    /usr/bin/time -f '%U %S %M' -o "$work/told" "$bench" node < "$work/$input" > "$work/$input.out"
    awk -v what="$lines $input lines" '{ printf "%s: %.2f s of processor time, %.1f MB at most\n", what, $1 + $2, $3 * 1024 / 1e6 }' "$work/told"
  done
  tail -n 1 "$work/$input.out"
done
