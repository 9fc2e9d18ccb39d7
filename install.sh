#!/usr/bin/env bash
# Puts the built program, its companions, the man page and the completion for bash under PREFIX, or takes them away again:
#     bash install.sh [PREFIX]             PREFIX is ~/.local where it isn't said
#     bash install.sh --remove [PREFIX]
# Says each file that it puts or takes away. Folders stay. Where it can't be done the status isn't 0.
set -eu

remove=
if [ "${1:-}" = --remove ]; then remove=1; shift; fi
prefix=${1:-$HOME/.local}
if [ $# -gt 1 ] || [[ $prefix = -* ]]; then
  echo "install.sh: the words are [--remove] [PREFIX]" >&2; exit 1
fi
[[ $prefix = /* ]] || prefix=$PWD/$prefix
cd "$(dirname "$0")"

places() { # each file of this repository and its place under PREFIX
  local name
  echo crates/fmem/out/fmem bin/fmem
  for name in companions/fmem-*; do echo "$name bin/${name##*/}"; done
  echo docs/fmem.1 share/man/man1/fmem.1
  for name in fmem fmem-explain fmem-json fmem-unsigned; do echo "docs/fmem.bash share/bash-completion/completions/$name"; done
}

if [ -n "$remove" ]; then
  places | while read -r _ place; do
    if [ -e "$prefix/$place" ]; then rm "$prefix/$place"; echo "took $prefix/$place away"; fi
  done
  exit
fi
if [ ! -x crates/fmem/out/fmem ]; then
  echo "install.sh: there is no crates/fmem/out/fmem yet; (cd crates/fmem && rt run -- sum 16 8 long ../../examples/two_records) makes it" >&2
  exit 1
fi
places | while read -r file place; do
  if [[ $place = bin/* ]]; then mode=755; else mode=644; fi
  install -D -m "$mode" "$file" "$prefix/$place"
  echo "put $prefix/$place"
done
case :$PATH: in
  *":$prefix/bin:"*) ;;
  *) echo "$prefix/bin isn't on the PATH yet: export PATH=\"$prefix/bin:\$PATH\"" ;;
esac
