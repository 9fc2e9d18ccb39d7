# Completion of fmem's words for bash, and of the companions that take them: `. docs/fmem.bash`, or a copy named as each of
# them in ~/.local/share/bash-completion/completions, where `install.sh` puts it.
# A layout's paths are those that `fmem layout` prints; of `tally` those of bytes and booleans, of `texts` those of
# sequences of bytes, with [0] for each [] before the last one.

_fmem_paths() { # a layout's file and the types that serve, each between | and |: the layout's paths to such values
  local path at type rest
  while read -r path at type rest; do
    [[ $path = size || $path = alignment || $2 != *"|$type|"* ]] || printf '%s\n' "$path"
  done < <(fmem layout "$1" 2> /dev/null)
}

_fmem_rows() { # a layout's file: the paths to its sequences of bytes
  local path
  while read -r path; do
    [[ $path = *'[]' ]] || continue
    path=${path%'[]'}
    path=${path//'[]'/[0]}
    printf '%s\n' "${path:-.}"
  done < <(_fmem_paths "$1" '|byte|')
}

_fmem_query() { # a layout's file and a query's first part: what its last piece may become, behind all before it
  local before=${2%"${2##*[\", ]}"} last=${2##*[\", ]} path word
  while read -r path; do
    if [[ $2 = *' where '* ]]; then # a condition's path leads to one value
      for word in "$path"{=,!=,'<','<=','>','>='}; do [[ $path = *'[]'* ]] || printf '%s\n' "$word"; done
    else
      printf '%s\n' "sum($path)" "min($path)" "max($path)" "list($path)" count
    fi
  done < <(_fmem_paths "$1" '|byte|boolean|char|short|int|long|') | sort -u | while read -r word; do
    [[ $word != "$last"* ]] || printf '%s\n' "$before$word"
  done
}

_fmem() {
  local word current command k types quote= behind=
  local -a words=()
  current=${COMP_WORDS[COMP_CWORD]} command=${COMP_WORDS[1]}
  COMPREPLY=()
  if [ "$COMP_CWORD" = 1 ]; then
    mapfile -t COMPREPLY < <(compgen -W 'sum layout migrate query stream tally group texts demo run' -- "$current")
    return
  fi
  for ((k = 2; k < COMP_CWORD; k++)); do # the words that aren't of the option
    word=${COMP_WORDS[k]}
    case $word in
      --threads) behind=1 ;;
      --threads=* | -- | =) ;;
      *) if [ -n "$behind" ]; then behind=; else words+=("$word"); fi ;;
    esac
  done
  if [[ $command = @(query|stream|tally|group|demo) && $current = --* ]]; then
    mapfile -t COMPREPLY < <(compgen -W --threads -- "$current")
    return
  fi
  if [ -n "$behind" ]; then
    mapfile -t COMPREPLY < <(compgen -W '1 2 3 4 5 6 7 8 9 10 11 12 13 14 15 16' -- "$current")
    return
  fi
  # A query is one word between quotes, which isn't yet ended; bash gives the word with its quote.
  [[ $current != [\"\']* ]] || quote=${current:0:1}
  case $command/${#words[@]} in
    sum/2) mapfile -t COMPREPLY < <(compgen -W 'byte boolean char short int long' -- "$current") ;;
    tally/1 | group/1)
      types='|byte|boolean|'
      [ "$command" = tally ] || types+='char|short|int|long|'
      mapfile -t COMPREPLY < <(_fmem_paths "${words[0]}" "$types" | while read -r word; do
        [[ $word != "${current#"$quote"}"* ]] || printf '%s\n' "$word"
      done) ;;
    texts/1) mapfile -t COMPREPLY < <(_fmem_rows "${words[0]}" | while read -r word; do
      [[ $word != "${current#"$quote"}"* ]] || printf '%s\n' "$word"
    done) ;;
    query/1 | stream/1) mapfile -t COMPREPLY < <(_fmem_query "${words[0]}" "${current#"$quote"}")
      # Where one is left bash would end the quote; by a second one, with a space behind it, the query may go on.
      [[ -z $quote || ${#COMPREPLY[@]} != 1 ]] || COMPREPLY+=("${COMPREPLY[0]} ")
      compopt -o nospace 2> /dev/null ;;
    layout/0 | migrate/0 | run/0 | sum/3 | query/[02] | stream/[02] | tally/[02] | group/[02] | texts/[02])
      compopt -o filenames 2> /dev/null
      mapfile -t COMPREPLY < <(compgen -f -- "$current") ;;
  esac
}

complete -F _fmem fmem fmem-explain fmem-json fmem-unsigned
