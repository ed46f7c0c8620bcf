#!/usr/bin/env bash
# Tries pages in a real browser: Debian's chromium without a window, and pdftotext of poppler-utils; nothing else is wanted but Python. With
# --firefox it is Debian's firefox-esr.
#   tests/by_hand/page.sh [--firefox]                                 the pages of the scenarios and plans in examples/, and one with a hostile title
#   tests/by_hand/page.sh [--firefox] run PAGE TRANSCRIPT [--shots FOLDER] [--speed]
#   tests/by_hand/page.sh [--firefox] plan PAGE [--shots FOLDER]
#   tests/by_hand/page.sh [--firefox] hostile PAGE TITLE [--shots FOLDER]
# Status 77 where there is no such browser: nothing was tested.
set -eu
here=$(cd "$(dirname "$0")" && pwd)
top=$(cd "$here/../.." && pwd)
browser=chromium options=()
[ "${1-}" != --firefox ] || { browser=firefox-esr options=(--firefox); shift; }
for program in "$browser" pdftotext python3; do
  if ! command -v "$program" > /dev/null; then
    echo "page.sh: no $program, so no page was tested (apt-get install $browser poppler-utils)" >&2
    exit 77
  fi
done
[ $# = 0 ] || exec python3 "$here/page/page.py" "$@" "${options[@]}"
work=$(mktemp -d); trap 'rm -rf "$work"' EXIT
failed=0
for scenario in "$top"/examples/scenarios/*.toml; do
  name=$(basename "$scenario" .toml)
  # 640,000 copies are too many for a page
  [ "$name" = sampled_values ] && continue
  "$top/bin/hsr_bench" run --transcript < "$scenario" > "$work/$name.transcript" || [ $? = 2 ]
  "$top/bin/hsr_view" page --names "$scenario" --title "$name" < "$work/$name.transcript" > "$work/$name.html"
  python3 "$here/page/page.py" run "$work/$name.html" "$work/$name.transcript" "${options[@]}" || failed=$((failed + 1))
done
for plan in "$top"/examples/plans/*.toml "$top"/examples/first_plan.toml; do
  name=$(basename "$plan" .toml)
  "$top/bin/hsr_plan" report --date 2026-11-28 < "$plan" > "$work/$name.plan.html" || [ $? = 2 ]
  python3 "$here/page/page.py" plan "$work/$name.plan.html" "${options[@]}" || failed=$((failed + 1))
done
title="</script><script>alert(1)</script><img src=x onerror=alert(1)> \"quoted\" 'so'"
"$top/bin/hsr_view" page --title "$title" < "$work/ring3_cut.transcript" > "$work/hostile.html"
python3 "$here/page/page.py" hostile "$work/hostile.html" "$title" "${options[@]}" || failed=$((failed + 1))
echo "$failed failed"
[ "$failed" = 0 ]
