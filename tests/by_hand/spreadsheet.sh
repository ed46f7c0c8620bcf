#!/bin/sh
# Opens the tables of each example in LibreOffice: each is made a spreadsheet (.ods) and from that a table again, which has to be the
# one that the bench wrote, to the octet. LibreOffice is that of Debian (`apt-get update; apt-get install -y libreoffice-calc`).
# Usage: tests/by_hand/spreadsheet.sh [HSR_BENCH], or that of bin/. Status 1 where a table is not written, doesn't open or comes back
# changed; where there is no soffice a line says so.
set -u
here=$(cd "$(dirname "$0")/../.." && pwd)
bench=${1:-$here/bin/hsr_bench}
if ! command -v soffice >/dev/null; then
    echo 'no soffice here: nothing was opened'
    exit 0
fi
work=$(mktemp -d)
trap 'rm -rf "$work"' EXIT
bad=0

# a comma between cells, a quote round those that need it, UTF-8, from the first line on; numbers in plain digits alone are numbers, so
# that a send as 3:117 isn't taken for a time of day
read_as='Text - txt - csv (StarCalc):44,34,76,1,,0,false,false'
write_as='csv:Text - txt - csv (StarCalc):44,34,76,1,,0,false,true'

# office WORDS..: LibreOffice without a window, with a profile of its own
office() {
    soffice --headless "-env:UserInstallation=file://$work/profile" "$@" >>"$work/said" 2>&1
}

# opened FOLDER: whether each of its tables comes back as it was
opened() {
    mkdir "$1/sheets" "$1/again"
    office --infilter="$read_as" --convert-to ods --outdir "$1/sheets" "$1"/*.csv
    office --convert-to "$write_as" --outdir "$1/again" "$1"/sheets/*.ods
    for table in nodes links sends load latency doubt; do
        if ! cmp -s "$1/$table.csv" "$1/again/$table.csv"; then
            echo "$name: $table came back changed"
            diff "$1/$table.csv" "$1/again/$table.csv" | head -6
            bad=1
        fi
    done
}

for plan in "$here"/examples/scenarios/*.toml; do
    name=$(basename "$plan" .toml)
    for calls in numbers names; do
        folder=$work/$name.$calls
        mkdir "$folder"
        case $calls in
            numbers) "$bench" run --csv "$folder" <"$plan" >"$work/report" ;;
            names) "$bench" run --names --csv "$folder" <"$plan" >"$work/report" ;;
        esac
        # a run that is doubted has tables too
        [ $? -le 2 ] || { echo "$name: no tables"; bad=1; continue; }
        opened "$folder"
    done
    echo "$name: opened"
done
exit $bad
