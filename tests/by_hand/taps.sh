#!/bin/sh
# Takes each capture of examples/captures through editcap, mergecap and reordercap (`apt-get update; apt-get install -y wireshark-common`), and
# compares what hsr_tap tells of what they write with what it tells of the capture itself. Each packet keeps its moment, its interface and its
# octets there. Its number in the file may change, and so may `disorder`; what a capture program counted and when it ended isn't kept. So these
# aren't compared.
# Usage: tests/by_hand/taps.sh [HSR_TAP], or that of bin/. Status 1 where a report differs.
set -u
here=$(cd "$(dirname "$0")/../.." && pwd)
tap=${1:-$here/bin/hsr_tap}
work=$(mktemp -d)
trap 'rm -rf "$work"' EXIT
bad=0 tried=0

# told FILE: all reports on a capture. Nothing is open at its end, which these tools don't keep.
told() {
    "$tap" health --full --whole <"$1" 2>&1
    if [ -e "$device" ]; then
        { echo 'whole = true'; cat "$device"; } >"$work/device.toml"
        grep -q '^role = "danh"' "$device" && "$tap" lines "$device" <"$1" 2>&1
        "$tap" judge --full "$work/device.toml" <"$1" 2>&1
    fi
}

# plain: without numbers of packets, what depends on their order in the file, how many the capture lost, and how long it took
plain() {
    sed -E 's/packet [0-9]+/packet -/g; s/disorder [0-9]+ by [0-9]+/disorder -/; s/ dropped [0-9]+/ dropped -/; s/ us [0-9]+/ us -/; s/ average [0-9.]+/ average -/; s/ for [0-9]+$/ for -/'
}

# compared HOW FILE: counts a capture that is told otherwise
compared() {
    tried=$((tried + 1))
    if ! told "$2" | plain | cmp -s - "$work/wanted"; then
        echo "$name, $1: told otherwise"
        told "$2" | plain | diff "$work/wanted" - | head -5
        bad=$((bad + 1))
    fi
}

for capture in "$here"/examples/captures/*.pcap*; do
    name=$(basename "$capture")
    device=${capture%.*}.toml
    told "$capture" | plain >"$work/wanted"
    half=$(($(capinfos -T -r -c -M "$capture" | cut -f 2) / 2))
    editcap -F pcapng "$capture" "$work/pcapng" 2>/dev/null && compared 'editcap -F pcapng' "$work/pcapng"
    case $name in *.pcap)
        editcap -F nsecpcap "$capture" "$work/nsecpcap" 2>/dev/null && compared 'editcap -F nsecpcap' "$work/nsecpcap" ;;
    esac
    # Two parts of one capture, put together again
    editcap -r "$capture" "$work/first" 1-"$half" 2>/dev/null && editcap "$capture" "$work/second" 1-"$half" 2>/dev/null &&
        mergecap -w "$work/merged" "$work/first" "$work/second" && compared mergecap "$work/merged"
    reordercap "$capture" "$work/ordered" >/dev/null 2>&1 && compared reordercap "$work/ordered"
done
echo "$((tried - bad)) of $tried as before"
[ "$bad" = 0 ]
