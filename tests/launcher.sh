#!/usr/bin/env bash
# Tries how programs are found, kept, released and installed: bin/, tools/sources, tools/build, tools/gate, tools/built, tools/release and
# install, on small trees with stand-ins for the programs and for the kit. The last line is `N passed, M failed`. It needs bash,
# coreutils, grep, sed, awk and Python 3.
#
#     tests/launcher.sh
set -u
top=$(cd "$(dirname "${BASH_SOURCE[0]}")/.." && pwd)
work=$(mktemp -d); trap 'chmod -R u+w "$work"; rm -rf "$work"' EXIT
passed=0 failed=0
names=(hsr_bench hsr_plan hsr_view hsr_tap)
tree=$work/tree

# is WHAT WANTED GOT: one thing that was tried.
is() {
  if [ "$2" = "$3" ]; then passed=$((passed + 1)); else failed=$((failed + 1)); echo "differs: $1: wanted [$2], got [$3]"; fi
}

# A folder with a shell and those of coreutils that the programs' first call may use.
lay_clean() {
  local each
  mkdir "$work/clean"
  for each in sh cat chmod cp dirname du ls mkdir mktemp mv readlink rm rmdir sha256sum sleep sort tac touch; do
    ln -s "$(command -v "$each")" "$work/clean/$each"
  done
}

# A stand-in for the kit, whose `rt ci` proves nothing and links programs that say `built`. It refuses what the kit's own does: a folder that
# is no repository of its own, and links.
lay_kit() {
  mkdir "$work/kit"
  cat >"$work/kit/rt" <<'RT'
#!/usr/bin/env bash
kit=$(dirname "$0")
case $1 in
  version) cat "$kit/line" ;;
  ci)
    [ ! -e "$kit/refuse" ] && [ -d .git ] && [ -z "$(find . -type l)" ] || { echo '0 passed, 1 failed'; exit 1; }
    for crate in crates/*/; do
      name=$(basename "$crate")
      echo "rt: $name proved"
      [ -f "$crate/src/main.rt" ] || continue
      mkdir "$crate/out"
      sed 's/^says=.*/says=built/' "$kit/program" >"$crate/out/$name"
      chmod +x "$crate/out/$name"
    done
    echo '2 passed, 0 failed'
    ;;
esac
RT
  printf '#!/bin/sh\n' >"$work/kit/strip"
  echo 'kit-1 logic one' >"$work/kit/line"
  cat >"$work/kit/program" <<'PROGRAM'
#!/bin/sh
says=released
[ "${1-}" != --version ] || { echo "${0##*/} 1.0.0 (rattle logic one)"; exit 3; }
printf '%s' "$says ${0##*/}"
for word; do printf ' <%s>' "$word"; done
echo
cat
exit 7
PROGRAM
  chmod +x "$work"/kit/*
}

# A tree of two small programs' crates, with what is tried here.
lay_tree() {
  local name
  rm -rf "$tree"
  mkdir -p "$tree/crates/low/src/deep" "$tree/crates/low/proofs" "$tree/crates/low/must-fail" "$tree/crates/low_tests/src" "$tree/release"
  cp -R "$top/bin" "$top/tools" "$top/install" "$tree"
  for name in hsr_bench_main hsr_plan hsr_view hsr_tap; do mkdir -p "$tree/crates/$name/src"; echo main >"$tree/crates/$name/src/main.rt"; done
  printf 'low:\nhsr_bench_main: low\nhsr_plan: low\nhsr_view: low\nhsr_tap: low\nlow_tests: low\n' >"$tree/crates.txt"
  echo 'Handles allowed: none.' >"$tree/HANDLES"
  echo 1.0.0 >"$tree/VERSION"
  echo one >"$tree/crates/low/src/lib.rt"; echo two >"$tree/crates/low/src/deep/a.rt"; echo three >"$tree/crates/low/src/deep.rt"
  echo four >"$tree/crates/low_tests/src/lib.rt"; echo five >"$tree/crates/low/must-fail/a.edit"
}

# A release of the tree as it is.
lay_release() {
  local name
  for name in "${names[@]}"; do
    cp "$work/kit/program" "$tree/release/$name"
    mkdir -p "$tree/release/man" "$tree/release/completions"
    echo "page $name" >"$tree/release/man/$name.1"; echo "words $name" >"$tree/release/completions/$name"
  done
  cp "$work/kit/line" "$tree/release/KIT"
  cp "$tree/VERSION" "$tree/release/VERSION"
  "$tree/tools/sources" "$(cat "$work/kit/line")" >"$tree/release/SOURCES"
  (cd "$tree/release" && sha256sum "${names[@]}" >SHA256SUMS)
}

# clean WORD..: runs a command with a shell and coreutils alone. with_kit: with the stand-in for the kit.
clean() { env -i PATH="$work/clean" HOME="$work" "$@"; }
with_kit() { env -i PATH="$work/kit:$PATH" HOME="$work" "$@"; }

# call WORD..: what a call says on standard output and standard error, and its status, in a line.
call() {
  local said status
  said=$("$@" </dev/null 2>&1); status=$?
  printf '%s' "${said//$'\n'/ / } = $status"
}

younger='hsr_bench: this is the released program, version 1.0.0; the sources here are younger / released hsr_bench = 7'
bench=(clean "$tree/bin/hsr_bench")

try_words() {
  is 'a released program' 'released hsr_bench = 7' "$(call "${bench[@]}")"
  is 'the second call' 'released hsr_bench = 7' "$(call "${bench[@]}")"
  is 'words with spaces' "released hsr_plan <a b> <> <*> <'> <-h> = 7" "$(call clean "$tree/bin/hsr_plan" 'a b' '' '*' "'" -h)"
  is 'standard input' $'released hsr_bench\nx\ny' "$(printf 'x\ny' | "${bench[@]}")"
  is 'nothing on standard error' '' "$("${bench[@]}" </dev/null 2>&1 >/dev/null)"
  is 'from its folder' 'released hsr_view = 7' "$(cd "$tree/bin" && call clean ./hsr_view)"
  is 'from the root' 'released hsr_view = 7' "$(cd "$tree" && call clean bin/hsr_view)"
  is 'by sh' 'released hsr_view = 7' "$(cd "$tree" && call clean sh bin/hsr_view)"
  is 'by PATH' 'released hsr_view = 7' "$(call env -i PATH="$work/clean:$tree/bin" hsr_view)"
}

try_links() {
  mkdir -p "$work/else where/bin"
  ln -sf "$tree/bin/hsr_bench" "$work/else where/bin/hsr_bench"
  ln -sf "$work/else where/bin/hsr_bench" "$work/hsr_bench"
  ln -sf "$tree/bin/hsr_plan" "$work/short"
  is 'a link' 'released hsr_bench <a b> = 7' "$(call clean "$work/else where/bin/hsr_bench" 'a b')"
  is 'a link to a link' 'released hsr_bench = 7' "$(call clean "$work/hsr_bench")"
  is 'a link of another name' 'released hsr_plan = 7' "$(call clean "$work/short")"
  is 'its path' "$tree/release/hsr_bench = 0" "$(call clean "$tree/tools/launcher" hsr_bench)"
  is 'an unknown path' 3 "$(clean "$tree/tools/launcher" hsr_x 2>/dev/null; echo $?)"
}

# sees WHAT COMMAND..: a change of the sources is seen, and its undoing too.
sees() {
  local what=$1
  shift
  lay_tree; lay_release
  call "${bench[@]}" >/dev/null; call "${bench[@]}" >/dev/null
  (cd "$tree" && "$@")
  is "$what" "$younger" "$(call "${bench[@]}")"
  is "$what, called again" "$younger" "$(call "${bench[@]}")"
}

put_back_old() { echo ONE >x; touch -d '2001-01-01' x; cp -p x crates/low/src/lib.rt; rm x; }
edit_at_its_time() { echo ONE >x; touch -r crates/low/src/lib.rt x; cat x >crates/low/src/lib.rt; touch -r x crates/low/src/lib.rt; }

try_changes() {
  sees 'a source was edited' eval 'echo ONE >crates/low/src/lib.rt'
  echo one >"$tree/crates/low/src/lib.rt"
  is 'the edit was taken back' 'released hsr_bench = 7' "$(call "${bench[@]}")"
  sees 'a source has gone' rm crates/low/src/deep/a.rt
  sees 'a source was renamed' mv crates/low/src/deep/a.rt crates/low/src/deep/b.rt
  sees 'a source came' eval 'echo new >crates/low/src/deep/b.rt'
  sees 'a source with a space and a quote came' eval "echo new >\"crates/low/src/a 'b.rt\""
  sees 'a folder came' eval "mkdir \"crates/low/src/it's\" && echo new >\"crates/low/src/it's/b.rt\""
  sees 'specs came' eval 'mkdir crates/low/specs && echo new >crates/low/specs/Lib.antt'
  sees 'a crate came' eval 'mkdir -p crates/more/src && echo new >crates/more/src/lib.rt'
  sees 'a crate has gone' rm -r crates/hsr_view
  sees 'crates.txt was edited' eval 'echo more: >>crates.txt'
  sees 'HANDLES was edited' eval 'echo more >HANDLES'
  sees 'another file of an old time was put there' put_back_old
  sees 'an edit bears the time of the source' edit_at_its_time
}

# Files that are no source of a program.
try_no_changes() {
  local each
  lay_tree; lay_release
  call "${bench[@]}" >/dev/null
  mkdir "$tree/crates/low/out"
  for each in low_tests/src/lib.rt low/must-fail/a.edit low/out/x.rt; do echo more >>"$tree/crates/$each"; done
  is 'tests, wrong bodies and what was made are no sources' 'released hsr_bench = 7' "$(call "${bench[@]}")"
}

# A tree that is copied with a sum that was right before an edit.
try_copy() {
  lay_tree; lay_release
  call "${bench[@]}" >/dev/null
  echo ONE >"$tree/crates/low/src/lib.rt"
  rm -rf "$work/copied"
  mkdir "$work/copied"
  cp -R "$tree/bin" "$tree/crates" "$tree/crates.txt" "$tree/HANDLES" "$tree/release" "$tree/tools" "$work/copied"
  cp -R "$tree/out" "$work/copied"
  is 'a copy with a sum of other sources' "$younger" "$(call clean "$work/copied/bin/hsr_bench")"
}

# out/ is a file here, since the super user may write in any folder.
try_read_only() {
  lay_tree; lay_release
  echo >"$tree/out"
  is 'a tree that keeps nothing' 'released hsr_bench = 7' "$(call "${bench[@]}")"
  echo ONE >"$tree/crates/low/src/lib.rt"
  is 'an edit there' "$younger" "$(call "${bench[@]}")"
  is 'an edit there, with the kit' "$younger" "$(call with_kit "$tree/bin/hsr_bench")"
  rm "$tree/out"; echo one >"$tree/crates/low/src/lib.rt"
  chmod -R a-w "$tree"
  is 'a tree without the right to write' 'released hsr_bench = 7' "$(call "${bench[@]}")"
  chmod -R u+w "$tree"
}

# Many first calls side by side, while a source changes to and fro.
try_race() {
  local each
  lay_tree; lay_release
  for each in 1 2 3 4 5 6 7 8; do
    echo ONE >"$tree/crates/low/src/lib.rt"; call "${bench[@]}" >/dev/null &
    echo one >"$tree/crates/low/src/lib.rt"; call "${bench[@]}" >/dev/null &
  done
  wait
  is 'after calls side by side' 'released hsr_bench = 7' "$(call "${bench[@]}")"
  is 'one sum is kept' 1 "$(ls -d "$tree"/out/sources/*/at.* | wc -l)"
}

try_build() {
  lay_tree; lay_release
  is 'the kit is not asked where the release is right' 'released hsr_bench = 7' "$(call with_kit "$tree/bin/hsr_bench")"
  echo ONE >"$tree/crates/low/src/lib.rt"
  is 'it is built' $'built hsr_bench <a b>\nx' "$(echo x | with_kit "$tree/bin/hsr_bench" 'a b' 2>"$work/err")"
  is 'it says how far it is' 1 "$(grep -c 'hsr_bench: proved low, 2 of 2 crates' "$work/err")"
  is 'it is not built again' 'built hsr_bench = 7' "$(call with_kit "$tree/bin/hsr_bench")"
  is 'without the kit' 'built hsr_bench = 7' "$(call "${bench[@]}")"
  is 'others are not built' "${younger//hsr_bench/hsr_plan}" "$(call clean "$tree/bin/hsr_plan")"
  is 'no room is left' 0 "$(ls -d "$tree"/out/build.* 2>/dev/null | wc -l)"
  echo 'kit-2 logic two' >"$work/kit/line"
  is 'another kit' 'built hsr_bench = 7' "$(call with_kit "$tree/bin/hsr_bench")"
  echo 'kit-1 logic one' >"$work/kit/line"
  echo one >"$tree/crates/low/src/lib.rt"
  is 'the release is right again' 'released hsr_bench = 7' "$(call "${bench[@]}")"
  echo TWO >"$tree/crates/low/src/lib.rt"; touch "$work/kit/refuse"
  is 'what is not proved does not run' 1 "$(with_kit "$tree/bin/hsr_bench" </dev/null >/dev/null 2>&1; echo $?)"
  rm "$work/kit/refuse" "$tree/release/hsr_bench" "$tree/out/built/hsr_bench"
  is 'no program at all' "hsr_bench: there is no released program, and the command rt of the Rattle kit isn't on PATH: see README.md = 1" \
    "$(call "${bench[@]}")"
}

# tools/gate calls rt as it is; only those of kits 13b and 13f are loaded, and then ask once for each crate, also where they work on a
# copy of one: that of 13f still sums up each time.
try_gate() {
  mkdir "$work/forgets"
  cat >"$work/forgets/rt" <<'RT'
#!/usr/bin/env python3
import copy
import sys


class Crate:
    asked = 0

    def __init__(self, folder):
        self.folder = folder

    def below(self):
        Crate.asked += 1
        return []

    def stamp(self):
        Crate.asked += 1
        return self.folder


class rtlib:
    Crate = Crate


def main(words):
    if words == ["version"]:
        print("rattle-kit-13b logic one")
        return 0
    crates = [Crate("one"), Crate("two")]
    told = [(it.below(), it.stamp()) for it in [*crates, *map(copy.copy, crates)]]
    print(*words, *[stamp for _, stamp in told], Crate.asked)
    return 5


if __name__ == "__main__":
    sys.exit(main(sys.argv[1:]))
RT
  chmod +x "$work/forgets/rt"
  is 'the gate of a kit that forgets' 'ci one two one two 4 = 5' "$(call env PATH="$work/forgets:$PATH" "$tree/tools/gate")"
  sed -i 's/rattle-kit-13b/rattle-kit-13f/' "$work/forgets/rt"
  is 'the gate of a kit that forgets what stands below' 'ci one two one two 6 = 5' "$(call env PATH="$work/forgets:$PATH" "$tree/tools/gate")"
  is 'the gate of another kit' '0 passed, 1 failed = 1' "$(cd "$work" && call with_kit "$tree/tools/gate")"
}

try_release() {
  local sum name
  lay_tree; rm -rf "$tree/release"
  is 'no release' 1 "$(clean "$tree/tools/release" --check >/dev/null; echo $?)"
  is 'nothing was built' 1 "$(with_kit "$tree/tools/release" >/dev/null 2>&1; echo $?)"
  sum=$("$tree/tools/sources" 'kit-1 logic one')
  for name in "${names[@]}"; do with_kit "$tree/tools/built" "$name" "$work/kit/program" "$sum"; done
  is 'a release' 'release/ is version 1.0.0, of these sources = 0' "$(call with_kit "$tree/tools/release")"
  is 'its check' 'release/ is version 1.0.0, of these sources, built with kit-1 logic one = 0' \
    "$(call clean "$tree/tools/release" --check)"
  is 'its sums' 0 "$(cd "$tree/release" && sha256sum --check --quiet SHA256SUMS >/dev/null; echo $?)"
  is 'its files' 'KIT SHA256SUMS SOURCES VERSION hsr_bench hsr_plan hsr_tap hsr_view ' "$(LC_ALL=C ls "$tree/release" | tr '\n' ' ')"
  is 'no kit, no release' 1 "$(clean "$tree/tools/release" >/dev/null 2>&1; echo $?)"
  is 'the same as what was built' 0 "$(with_kit "$tree/tools/release" --compare "$tree/out/built" >/dev/null; echo $?)"
  mkdir "$work/gate"; cp "$tree/out/built/"hsr_* "$work/gate"; echo >>"$work/gate/hsr_plan"; rm "$work/gate/hsr_view"
  is 'others than what was built' "release/hsr_plan differs from $work/gate/hsr_plan / hsr_view isn't in $work/gate = 1" \
    "$(call with_kit "$tree/tools/release" --compare "$work/gate")"
  is 'another sum is not kept' 1 \
    "$(with_kit "$tree/tools/built" hsr_bench "$work/kit/program" "${sum/[0-9a-f]/x}" 2>/dev/null; echo $?)"
  echo >>"$tree/release/hsr_bench"
  is 'a damaged release' 2 "$(clean "$tree/tools/release" --check >/dev/null; echo $?)"
  with_kit "$tree/tools/release" >/dev/null
  echo 1.1.0 >"$tree/VERSION"
  is 'programs of another version' 'tools/release: hsr_bench --version says hsr_bench 1.0.0 (rattle logic one) = 1' \
    "$(call with_kit "$tree/tools/release")"
  is 'a release of another version' 1 "$(clean "$tree/tools/release" --check >/dev/null; echo $?)"
  echo 1.0.0 >"$tree/VERSION"; echo ONE >"$tree/crates/low/src/lib.rt"
  is 'an old release' 'release/ is version 1.0.0; the sources here are younger = 1' "$(call clean "$tree/tools/release" --check)"
  is 'old programs are not released' 1 "$(with_kit "$tree/tools/release" >/dev/null 2>&1; echo $?)"
}

# All that stands below a folder.
below() { (cd "$1" && python3 -c 'import os
for folder, _, files in os.walk("."):
  for each in [""] + files: print(os.path.join(folder, each))' | LC_ALL=C sort); }

try_install() {
  local prefix="$work/a prefix" before
  lay_tree; lay_release
  mkdir -p "$prefix/bin" "$prefix/share/man"; echo mine >"$prefix/bin/mine"
  before=$(below "$prefix")
  is 'install' "$prefix/bin is not on PATH" "$(clean "$tree/install" "$prefix" | tail -n 1)"
  is 'an installed program' 'released hsr_plan <a b> = 7' "$(call clean "$prefix/bin/hsr_plan" 'a b')"
  is 'an installed page' 'page hsr_view' "$(cat "$prefix/share/man/man1/hsr_view.1")"
  is 'installed completions' 'words hsr_bench' "$(cat "$prefix/share/bash-completion/completions/hsr_bench")"
  is 'install again' 0 "$(clean "$tree/install" "$prefix" >/dev/null; echo $?)"
  is 'PREFIX/bin on PATH' 0 "$(env -i PATH="$work/clean:$prefix/bin" "$tree/install" "$prefix" | grep -c 'not on PATH')"
  is 'remove' 0 "$(clean "$tree/install" --remove "$prefix" >/dev/null; echo $?)"
  is 'nothing else has gone, nothing is left' "$before" "$(below "$prefix")"
  is 'remove again' "install: nothing was put into $prefix = 1" "$(call clean "$tree/install" --remove "$prefix")"
  is 'without PREFIX' 0 "$(clean "$tree/install" >/dev/null; echo $?)"
  is 'the place without PREFIX' 'released hsr_bench = 7' "$(call clean "$work/.local/bin/hsr_bench")"
  echo mine >"$work/.local/share/man/mine"
  is 'remove without PREFIX' 0 "$(clean "$tree/install" --remove >/dev/null; echo $?)"
  is 'what others put there stays' './ ./share/ ./share/man/ ./share/man/mine' "$(below "$work/.local" | tr '\n' ' ' | sed 's/ $//')"
  (cd "$work" && clean "$tree/install" made >/dev/null && clean "$tree/install" --remove made >/dev/null)
  is 'a folder that was made goes' no "$([ -e "$work/made" ] && echo yes || echo no)"
  is 'unknown words' 'usage: ./install [PREFIX] | ./install --remove [PREFIX] = 3' "$(call clean "$tree/install" --help)"
  is 'too many words' 3 "$(clean "$tree/install" a b 2>/dev/null; echo $?)"
}

# The sum of this tree, taken by another way; and that no program stands on a crate of tests.
try_sum() {
  is 'the sum of this tree' "$(cd "$top" && python3 - 'a kit' <<'PYTHON'
import hashlib, os, sys
paths = ['HANDLES', 'crates.txt']
for crate in os.listdir('crates'):
    for part in ('src', 'specs', 'proofs'):
        for folder, _, files in os.walk(f'crates/{crate}/{part}'):
            paths += [os.path.join(folder, each) for each in files if not crate.endswith('_tests')]
lines = [hashlib.sha256(open(path, 'rb').read()).hexdigest() + '  ' + path for path in sorted(paths)]
print(hashlib.sha256('\n'.join(lines + sys.argv[1:] + ['']).encode()).hexdigest())
PYTHON
)" "$(clean "$top/tools/sources" 'a kit')"
  is 'no crate stands on one of tests' '' "$(grep -E '^[a-z].*:.*_tests( |$)' "$top/crates.txt")"
}

# completed WORD..: what bash completes for the last of these words.
completed() {
  (
    set +u
    . "$top/release/completions/$1"
    COMP_WORDS=("$@") COMP_CWORD=$(($# - 1))
    "_$1"
    echo "${COMPREPLY[*]}"
  )
}

try_completions() {
  is 'commands' 'node run threads audit certify help' "$(completed hsr_bench '' | sed 's/ --.*//')"
  is 'options' '--table --transcript' "$(completed hsr_bench run --t)"
  is 'options of another command' '--table' "$(completed hsr_bench audit --t)"
  is 'modes' 'H N U' "$(completed hsr_bench node --mode '')"
  is 'a mode behind a sign' 'U' "$(completed hsr_bench node --mode = U)"
  sizes='small large 4 8 16 32 64 128 256 512 1024 2048 4096 8192 16384 32768 65535'
  is 'all behind a sign' "$sizes" "$(completed hsr_bench run --table =)"
  is 'units' 'us' "$(completed hsr_bench node --mac 02-00-00-00-00-01 --unit u)"
  is 'tables of a plan' "$sizes" "$(completed hsr_plan --table '')"
  is 'options of a sweep' '--at-us' "$(completed hsr_plan sweep --a)"
  is 'files' "$top/crates.txt" "$(completed hsr_view capture --names "$top/crates.t")"
  is 'input' "$top/crates.txt" "$(completed hsr_bench run '<' "$top/crates.t")"
}

# A program starts where the C library has all versions that it asks for. GLIBC 2.34 is of 2021; by a newer one it wouldn't start on Debian 12.
try_old_library() {
  local name
  for name in "${names[@]}"; do
    is "the newest part of the C library that $name asks for" GLIBC_2.34 "$(grep -aoE 'GLIBC_[0-9]+(\.[0-9]+)+' "$top/release/$name" | sort -uV | tail -1)"
  done
}

lay_clean
lay_kit
lay_tree
lay_release
try_words
try_links
try_changes
try_no_changes
try_copy
try_read_only
try_race
try_build
try_gate
try_release
try_install
try_sum
try_completions
try_old_library
echo "$passed passed, $failed failed"
[ "$failed" = 0 ]
