#!/bin/sh
# Shows the run of each example by hsr_view, and tells what other tools make of it. The tools are those of Debian: tshark reads its
# captures, and rsvg-convert of librsvg2-bin its pictures (`apt-get update; apt-get install -y tshark librsvg2-bin`). The devices are
# compared with the bench's own report.
# Usage: tests/by_hand/view.sh [HSR_BENCH HSR_VIEW], or those of bin/. Status 1 where a capture doesn't open, has a malformed field or a warning,
# hasn't as many packets as the run has rows, of the whole, of each link and of each send; where names aren't the scenario's; where a
# picture doesn't render, or hasn't as many arrows as rows are wanted; where the one in docs isn't that of its example; where over 400
# aren't refused; or where devices don't sum up to the report.
set -u
here=$(cd "$(dirname "$0")/../.." && pwd)
bench=${1:-$here/bin/hsr_bench} view=${2:-$here/bin/hsr_view}
work=$(mktemp -d)
trap 'rm -rf "$work"' EXIT
bad=0

# how many packets tshark finds in a capture
packets() {
    tshark -n -r "$1" -T fields -e frame.number 2>>"$work/said" | wc -l
}

# the rows of a transcript, each with its link and its send
rows() {
    awk '/^carried /{link = count++} /^(forth|back) /{print link, $2}' "$1"
}

# drawn WANTED WORDS..: whether a picture has as many arrows, and renders; over 400 it has to be refused
drawn() {
    wanted=$1
    shift
    if "$view" picture "$@" <"$run" >"$work/run.svg" 2>"$work/fault"; then
        told "arrows of $*" "$(grep -c '<line class="arrow"' "$work/run.svg")" "$wanted"
        rsvg-convert -o "$work/run.png" "$work/run.svg" 2>>"$work/said" || told "picture of $*" 'not rendered' rendered
    else
        told "fault of $*" "$(cat "$work/fault"; wc -c <"$work/run.svg")" "fault: copies $wanted, and a picture shows 400: choose by --send, --from or --until
0"
        told "refused at $wanted" "$((wanted > 400))" 1
    fi
}

# told WHAT FOUND WANTED: counts a difference
told() {
    if [ "$2" != "$3" ]; then
        echo "$name: $1: $2, and not $3"
        bad=1
    fi
}

for plan in "$here"/examples/scenarios/*.toml; do
    name=$(basename "$plan" .toml)
    run=$work/run.transcript
    : >"$work/said"
    "$bench" run --transcript <"$plan" >"$run"
    rows "$run" >"$work/rows"
    if ! "$view" capture --names "$plan" <"$run" >"$work/run.pcapng"; then
        echo "$name: no capture"
        bad=1
        continue
    fi
    rows=$(wc -l <"$work/rows")
    comments=$(tshark -n -r "$work/run.pcapng" -T fields -e frame.comment 2>>"$work/said" | grep -c .)
    interfaces=$(tshark -n -r "$work/run.pcapng" -T fields -e frame.interface_name 2>>"$work/said" | grep -c '>')
    faults=$(tshark -n -r "$work/run.pcapng" -Y '_ws.malformed || _ws.expert.severity >= 6291456' 2>>"$work/said" | wc -l)
    told packets "$(packets "$work/run.pcapng")" "$rows"
    told comments "$comments" "$rows"
    told interfaces "$interfaces" "$rows"
    told faults "$faults" 0

    # names: each packet goes from a port of a node of the scenario to another
    sed -n 's/.*name *= *"\([^"]*\)".*/\1/p' "$plan" | sort -u >"$work/names"
    tshark -n -r "$work/run.pcapng" -T fields -e frame.interface_name 2>>"$work/said" | tr '>' '\n' | sed 's/\.[A-Z]$//' | sort -u >"$work/shown"
    told 'other names' "$(comm -13 "$work/names" "$work/shown" | wc -l)" 0

    # each link and each send alone
    for link in $(cut -d' ' -f1 "$work/rows" | sort -u); do
        "$view" capture --link "$link" <"$run" >"$work/part.pcapng"
        told "packets of link $link" "$(packets "$work/part.pcapng")" "$(awk -v link="$link" '$1 == link' "$work/rows" | wc -l)"
    done
    for send in $(cut -d' ' -f2 "$work/rows" | sort -u | head -5); do
        "$view" capture --send "n$send" <"$run" >"$work/part.pcapng"
        told "packets of send $send" "$(packets "$work/part.pcapng")" "$(awk -v send="$send" '$2 == send' "$work/rows" | wc -l)"
    done
    if "$view" capture --link 128 <"$run" >"$work/part.pcapng" 2>>"$work/none" || [ -s "$work/part.pcapng" ]; then
        told 'a link that is not there' shown refused
    fi

    # pictures: the whole, each send alone, and the two halves of time
    drawn "$rows" --names "$plan"
    if [ "$name" = ring3_cut ]; then
        told 'the picture in docs' "$(cksum <"$here/docs/ring3_cut.svg")" "$(cksum <"$work/run.svg")"
    fi
    for send in $(cut -d' ' -f2 "$work/rows" | sort -u | head -5); do
        drawn "$(awk -v send="$send" '$2 == send' "$work/rows" | wc -l)" --send "n$send"
    done
    tshark -n -r "$work/run.pcapng" -t u -T fields -e frame.time_epoch 2>>"$work/said" | tr -d . | sed 's/000$//; s/^0*//; s/^$/0/' >"$work/moments"
    middle=$(sort -n "$work/moments" | awk '{m[NR] = $1} END {print m[int((NR + 1) / 2)] + 0}')
    drawn "$(awk -v middle="$middle" '$1 <= middle' "$work/moments" | wc -l)" --until "$middle"
    drawn "$(awk -v middle="$middle" '$1 >= middle' "$work/moments" | wc -l)" --from "$middle"

    # devices: the node column and the sum over ports are the report's counters; the losses are those of the links, each told twice, and
    # the octets those of all copies, and again of those that were taken
    "$view" devices <"$run" >"$work/devices"
    "$bench" run <"$plan" >"$work/report"
    awk '$3 == "taken" {print $NF}' "$work/devices" >"$work/up"
    awk '$3 == "taken" {n = 0; for (i = 5; i < NF; i++) n += $i; print n}' "$work/devices" >"$work/sums"
    awk '$1 == "node" {for (i = 4; i < NF; i++) if ($i == "up") print $(i + 1)}' "$work/report" >"$work/wanted"
    told 'taken up' "$(tr '\n' ' ' <"$work/up")" "$(tr '\n' ' ' <"$work/wanted")"
    told 'taken up at all ports' "$(tr '\n' ' ' <"$work/sums")" "$(tr '\n' ' ' <"$work/wanted")"
    lost=$(awk '$1 == "link" {n += $NF} END {print 2 * n}' "$work/report")
    octets=$(awk '/^(forth|back) /{n += length($3) / 2} $4 == "taken" {n += length($3) / 2} END {print n + 0}' "$run")
    told octets "$(awk '$1 == "octets" {for (i = 2; i <= NF; i++) n += $i} END {print n + 0}' "$work/devices")" "$octets"
    told 'lost copies' "$(awk '$1 == "lost" {for (i = 5; i <= NF; i++) n += $i} END {print n + 0}' "$work/devices")" "$lost"

    told 'words of tshark' "$(grep -vc 'Running as user' "$work/said")" 0
    echo "$name: rows $rows"
done
# over 400 copies: seventy sends to a group round a ring of three, of six copies each
name='seventy sends'
{
    sed '/^step/,$d' "$here/examples/scenarios/ring3.toml"
    echo 'step = ['
    for _ in $(seq 70); do echo '{do="send", node="n0", to="01-00-5E-00-00-01", type=0x88B5}, {do="drain"},'; done
    echo ']'
} | "$bench" run --transcript >"$run"
drawn 420
drawn 6 --send n0:0
drawn 12 --send n0:0 --send n0:3

exit $bad
