#!/usr/bin/env bash
# Tries the must-fail edits that the gate doesn't: wrong bodies, one a file, which the check must refuse.
#
#   bash bench/edits.sh [CRATE | CRATE/EDIT ..]      no name: each crate that has some, lowest first
#
# The edits of a crate stand in bench/edits/CRATE, those that the gate tries in crates/CRATE/must-fail. They are tried in a
# copy of this tree, as it stands, so nothing here changes: EDITS_COPY says where, and else it is /tmp/fmem-edits. What was
# built there stays, and under told/ what came of each edit over which files: so a run that was broken off goes on where it
# stopped, and the next one tries only what changed. Several runs may go side by side, each with a copy of its own.
# `rm -rf` the copy when it is done with; it takes some GB.
#
# A line an edit says what came of it: refused, and by which goal of which file; NOT REFUSED, where the crate is still
# proved, so a clause is weak or the edit changes nothing; BAD, where it can't be applied or read; not tried. The status is
# 1 where an edit is NOT REFUSED or BAD, else 3 where one was not tried, else 0.
set -euo pipefail
cd "$(dirname "$0")/.."
copy=${EDITS_COPY:-/tmp/fmem-edits}
# rt tells what came of edits when all of a call were tried, and each call begins with a check of the whole crate.
at_once=${EDITS_AT_ONCE:-20}

crates() { # the crates that have edits here, in the order of crates.txt
  sed -n 's/^\([a-z_0-9]*\).*:.*/\1/p' crates.txt | while read -r crate; do
    [ -d "bench/edits/$crate" ] && echo "$crate"
  done
}
edits_of() { # the edits of a crate or the one that is named, a name CRATE/EDIT a line
  case $1 in
  */*) [ -e "bench/edits/$1.edit" ] && echo "$1" ;;
  *) (cd bench/edits && find "$1" -name '*.edit' 2> /dev/null | sed 's/\.edit$//' | sort) ;;
  esac
}
for name in "$@"; do
  [ -n "$(edits_of "$name")" ] || { echo "edits: none of $name in bench/edits" >&2; exit 2; }
done
wanted=$(for name in "${@:-$(crates)}"; do for one in $name; do edits_of "$one"; done; done)

below() { # the crate and the repository's crates below it, by crates.txt
  awk -v top="$1" '
    { sub(/#.*/, "") }
    split($0, half, ":") > 1 { split(half[1], head, " "); of[head[1]] = half[2] }
    function walk(crate,   deps, i, n) {
      if (!(crate in of) || crate in seen) return
      seen[crate] = 1
      n = split(of[crate], deps, " ")
      for (i = 1; i <= n; i++) walk(deps[i])
      print crate
    }
    END { walk(top) }' crates.txt
}
sum_below() { # one sum of all that an edit of the crate is tried over
  local at
  {
    rt version
    for at in $(below "$1"); do
      grep "^$at\b" crates.txt
      find "crates/$at" -path '*/out' -prune -o \( -name '*.rt' -o -name '*.antt' \) -type f -print | sort | xargs sha256sum
    done
  } | sha256sum | cut -d' ' -f1
}

# The tree without what checks left; the copy's own such work stays.
mkdir -p "$copy/crates" "$copy/told"
[ -e "$copy/.git" ] || git init -q "$copy"
cp crates.txt HANDLES "$copy"
for at in crates/*/; do
  to=$copy/$at
  mkdir -p "$to"
  find "$to" -mindepth 1 -maxdepth 1 ! -name out -exec rm -rf {} +
  find "$at" -mindepth 1 -maxdepth 1 ! -name out ! -name must-fail -exec cp -pr {} "$to" \;
done
for at in "$copy"/crates/*/; do
  [ -d "crates/$(basename "$at")" ] || rm -rf "$at"
done

told() { # what rt said of a crate's edits: a line an edit, with the place and the goal that refused it
  local said='^(rt: )?must-fail ([^ ]+)\.edit: '
  sed -nE \
    -e "s/${said}refused, as it must be \(only because[^)]*\)(.*)/\2: refused by a name alone\3/" \
    -e "s/${said}refused, as it must be \(only by a limit[^)]*\)(.*)/\2: refused by a limit alone\3/" \
    -e "s/${said}refused, as it must be/\2: refused/" \
    -e "s/${said}NOT REFUSED.*/\2: NOT REFUSED/" \
    -e "s/${said}BAD EDIT: /\2: BAD: /" \
    -e "s/${said}NOT TRIED: /\2: not tried: /" \
    -e '/^[^ ]*: (NOT REFUSED|BAD|not tried|refused)/{' \
    -e 's/^([^ ]*: refused[^:]*): (note: )?(\.\/)?([^ :]*:[0-9]+):[0-9]+: ([^`]*)(`([^`]*)`)?.*/\1, \4 \7/' \
    -e 'p' -e '}'
}
work=$(mktemp -d); trap 'rm -rf "$work"' EXIT

try() { # tries these edits of a crate, each CRATE/EDIT, and keeps what came of each
  local crate=$1 edit line
  local at=$copy/crates/$crate/must-fail
  shift
  rm -rf "$at"; mkdir "$at"
  for edit in "$@"; do cp -p "bench/edits/$edit.edit" "$at"; done
  (cd "$copy" && rt must-fail "$crate") > "$work/said" 2>&1 < /dev/null || true
  told < "$work/said" > "$work/lines"
  for edit in "$@"; do
    # What rt said nothing of was not tried, whatever the reason.
    line=$(grep "^$edit: " "$work/lines") || line="$edit: not tried: $(grep -v 'must-fail' "$work/said" | tail -n 1)"
    echo "$line"
    case $line in *": not tried"*) ;; *) echo "$line" > "$(kept "$edit")" ;; esac
  done | tee -a "$work/all"
  rm -rf "$at"
}
kept() { # the file that keeps what came of an edit over today's files
  mkdir -p "$copy/told/${1%%/*}"
  echo "$copy/told/$1.$(cat "$work/sum" "bench/edits/$1.edit" | sha256sum | cut -c1-16)"
}
for crate in $(echo "$wanted" | sed 's,/.*,,' | awk '!seen[$0]++'); do
  start=$SECONDS left=()
  sum_below "$crate" > "$work/sum"
  for edit in $(echo "$wanted" | grep "^$crate/"); do
    if [ -e "$(kept "$edit")" ]; then tee -a "$work/all" < "$(kept "$edit")"; else left+=("$edit"); fi
  done
  for ((i = 0; i < ${#left[@]}; i += at_once)); do try "$crate" "${left[@]:i:at_once}"; done
  echo "== $crate: ${#left[@]} tried, $((SECONDS - start)) s"
done
count() { grep -c "$1" "$work/all" || true; }
missed=$(count '^[^ ]*: NOT REFUSED') bad=$(count '^[^ ]*: BAD') untried=$(count '^[^ ]*: not tried')
echo "edits: $(count '^[^ ]*: refused') refused ($(count '^[^ ]*: refused by a name alone') by a name alone, $(count '^[^ ]*: refused by a limit alone') by a limit alone), $missed NOT REFUSED, $bad BAD, $untried not tried"
[ "$missed$bad" = 00 ] || exit 1
[ "$untried" = 0 ] || exit 3
