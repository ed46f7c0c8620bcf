#!/bin/sh
# Times `hsr_tap health` over captures of up to a million packets, beside tshark's own reading of the first with a filter for HSR.
# Memory is told in MB of 10^6 octets, as files are; what GNU's time calls KB has 1024.
# Usage: bench/tap.sh [PACKETS [HSR_TAP]], or those of bin/. It needs python3, GNU's /usr/bin/time and tshark of Debian.
set -eu
here=$(cd "$(dirname "$0")/.." && pwd)
packets=${1:-1000000} tap=${2:-$here/bin/hsr_tap}
work=$(mktemp -d)
trap 'rm -rf "$work"' EXIT

# capture FORMAT PACKETS PAYLOAD: a ring of 16 nodes, tapped at one cable in both directions. Each node sends to a group in turn, each copy
# comes once each way, and each node tells of itself every 2 s.
capture() {
  python3 - "$@" <<'PYTHON'
import struct
import sys

form, packets, payload, nodes = sys.argv[1], int(sys.argv[2]), int(sys.argv[3]), 16
group, about = bytes.fromhex("010CCD010001"), bytes.fromhex("01154E000100")
out = sys.stdout.buffer
numbers, lives, now = [0] * nodes, [0] * nodes, 0


def block(kind, body):
    """A block of pcapng."""
    size = len(body) + 12
    return struct.pack("<II", kind, size) + body + struct.pack("<I", size)


def put(at, path, node, to, kind, payload):
    """A copy of a frame, with its HSR tag."""
    size = len(payload) + 6
    octets = to + bytes([2, 0, 0, 0, 0, node + 1]) + struct.pack(">HHHH", 0x892F, path << 12 | size, numbers[node], kind) + payload
    if form == "pcap":
        out.write(struct.pack("<IIII", at // 10**6, at % 10**6, len(octets), len(octets)) + octets)
    else:
        padded = octets + bytes(-len(octets) % 4)
        out.write(block(6, struct.pack("<IIIII", 0, at >> 32, at & 0xFFFFFFFF, len(octets), len(octets)) + padded))


if form == "pcap":
    out.write(struct.pack("<IHHiIII", 0xA1B2C3D4, 2, 4, 0, 0, 65535, 1))
else:
    out.write(block(0x0A0D0D0A, struct.pack("<IHHq", 0x1A2B3C4D, 1, 0, -1)) + block(1, struct.pack("<HHI", 1, 0, 65535)))
for step in range(packets // 2):
    node, now = step % nodes, now + 250
    if step // nodes % (2000000 // 250 // nodes) == 0:
        said = struct.pack(">HHBB", 1, lives[node], 23, 6) + bytes([2, 0, 0, 0, 0, node + 1])
        frame = (about, 0x88FB, said.ljust(46, b"\0"))
        lives[node] = (lives[node] + 1) % 65536
    else:
        frame = (group, 0x88B8, bytes(payload))
    put(now, 0, node, *frame)
    put(now + 90, 1, node, *frame)
    numbers[node] = (numbers[node] + 1) % 65536
PYTHON
}

# measure WHAT CAPTURE WORD..: processor time and most memory of a command that reads a capture
measure() {
  what=$1 file=$2
  shift 2
  /usr/bin/time -q -f '%U %S %M' -o "$work/told" "$@" <"$file" >"$work/report" 2>&1 || [ $? = 2 ]
  awk -v what="$what" -v size="$(stat -c %s "$file")" '{
    printf "%s, %.0f MB: %.2f s of processor time, %.0f MB at most\n", what, size / 1e6, $1 + $2, $3 * 1024 / 1e6
  }' "$work/told"
}

while read -r form count payload; do
  capture "$form" "$count" "$payload" >"$work/ring.$form"
  measure "$count packets of $((payload + 20)) octets, $form" "$work/ring.$form" "$tap" health --table 4096
  tail -n 1 "$work/report"
done <<FORMS
pcap $packets 46
pcap $((packets * 6 / 10)) 400
pcapng $packets 100
pcap $packets 100
FORMS
measure "tshark on the last" "$work/ring.pcap" tshark -n -r "$work/ring.pcap" -q -z io,stat,0,hsr
