# Hints of the wrapper denmavoli: read by it, not run. It has set here, the folder of the repository, and program, the built program.
#
# run_with_hints WORDS runs the program with the words, hands on its output and status, and shows hints on standard error behind it.

# Shows a sentence, unless it was shown before.
told=$'\n'
tell_line() {
  [[ $told != *$'\n'"$1"$'\n'* ]] || return 0
  told+="$1"$'\n'
  printf '%s\n' "$1" >&2
}

# Whether the texts before and at a place are what an entry asks for.
is_there() {
  local before='' at=$3
  [ "$at" != - ] || return 0
  if [[ $at == *'@ '* ]]; then before=${at%%@ *} at=${at#*@ }; fi
  [[ $1 =~ ($before)$ && $2 =~ ^($at) ]]
}

# Shows the sentence of the first entry of this kind that fits the texts before and at the place; without these, that for any place.
tell() {
  local LC_ALL=C entry kind rest
  local before=${2-} at=${3-}
  before=${before//$'\t'/ } at=${at//$'\t'/ }
  while IFS= read -r entry; do
    kind=${entry%% | *} rest=${entry#* | }
    [[ $kind == "$1" ]] || continue
    if [ $# -eq 1 ]; then
      [[ $rest == '- | '* ]] || continue
    else
      is_there "$before" "$at" "${rest%% | *}" || continue
    fi
    rest=${rest#* | }
    tell_line "hint: ${rest%% | *} (${rest#* | })"
    return
  done < "$here/tools/hints.txt"
}

# Shows a line and a caret beneath the byte that follows so many; a longer line than 200 bytes is cut on both sides.
show_caret() {
  local LC_ALL=C line=$1 first=0
  if [ ${#line} -gt 200 ]; then
    if [ "$2" -gt 100 ]; then first=$(($2 - 100)); fi
    line=${line:first:200}
    # (no character is cut in two)
    if [ "$first" -gt 0 ]; then
      while [[ $line == [$'\x80'-$'\xbf']* ]]; do line=${line:1} first=$((first + 1)); done
    fi
    if [ $((first + ${#line})) -lt ${#1} ]; then
      while [[ $line == *[$'\x80'-$'\xbf'] ]]; do line=${line%?}; done
      line=${line%[$'\xc0'-$'\xff']}
    fi
  fi
  local blanks=${line:0:$(($2 - first))}
  # a character has one column, whatever its bytes
  blanks=${blanks//[$'\x80'-$'\xbf']/}
  printf '%s\n%s^\n' "$line" "${blanks//[^$'\t']/ }" >&2
}

# Shows the place of a file, if it is one that can be read again, and the sentence for it.
tell_place() {
  local LC_ALL=C line bytes=$(($4 - 1))
  if [ -f "$2" ] && [ -r "$2" ]; then
    line=$(head -c 65537 < "$2" | sed -n "$3{s/\r\$//;p;q;}" | tr '\000-\010\013-\037\177' '[?*]')
    show_caret "$line" "$bytes"
    tell "$1" "${line:0:bytes}" "${line:bytes}"
  else
    tell "$1"
  fi
}

# Tells of a line `NAME:L:C: KIND` of one of the words; the rest of a line that names a range is no part of the kind.
tell_named() {
  local word rest
  for word in "${@:2}"; do
    rest=${1#"$word":}
    if [[ $rest != "$1" && $rest =~ ^([0-9]+):([0-9]+):\ ([a-z ]+)(\ -?[0-9]+)?$ ]]; then
      local kind=${BASH_REMATCH[3]}
      [ "$kind" != range ] || kind='halted range'
      tell_place "$kind" "$word" "${BASH_REMATCH[1]}" "${BASH_REMATCH[2]}"
      return
    fi
  done
  if [[ $1 == *': range '* ]]; then tell 'halted range'; fi
}

# Tells of the line of a refusal.
tell_refusal() {
  case $1 in
    'no output' | 'empty context' | valuation | 'outside context') tell "$1" ;;
    *) if [[ $1 =~ ^signature\ [0-9]+$ ]]; then tell signature; else tell_named "$@"; fi ;;
  esac
}

# Tells of the line of a run that was halted.
tell_halt() {
  case $1 in
    'halted: more than '*' events') tell 'halted events' ;;
    *) tell_named "${1#halted: }" "${@:2}" ;;
  esac
}

# Prints words as they are typed.
typed() {
  local word
  for word in "$@"; do
    [[ $word =~ ^[A-Za-z0-9_./,=:@%+-]+$ ]] || printf -v word '%q' "$word"
    printf ' %s' "$word"
  done
}

# Shows the command that runs the files of `prove` at a valuation.
tell_difference() {
  local word passed='' files=() valuation=()
  for word in "${@:3}"; do
    case $passed,$word in
      option,*) passed='' ;;
      files,*) files+=("$word") ;;
      ,--) passed=files ;;
      ,--budget | ,--proof) passed=option ;;
      ,--budget=* | ,--proof=*) ;;
      *) files+=("$word") ;;
    esac
  done
  [ "${2-}" = prove ] && [ ${#files[@]} -eq 2 ] || return 0
  [ -z "$1" ] || valuation=(--at "${1//, /,}")
  [ "$passed" != files ] || valuation+=(--)
  tell different
  if [ "$passed" = files ]; then
    tell_line " $(typed "$0" instance "${valuation[@]}" "${files[@]}")"
  else
    tell_line " $(typed "$0" instance "${files[@]}" ${valuation[@]+"${valuation[@]}"})"
  fi
}

# Tells of the lines of answers that a file holds: for an unknown, the line beneath tells more.
tell_answers() {
  local line kind='' name='[A-Za-z_][A-Za-z0-9_]{0,63}'
  local -x LC_ALL=C
  while IFS= read -r line; do
    if [ -n "$kind" ]; then
      tell "$kind" '' "$line"
      kind=''
    fi
    if [[ $line =~ ^$name\ (unknown\ [a-z ]+)$ || $line =~ ^(stopped\ [a-z ]+)$ ]]; then
      kind=${BASH_REMATCH[1]}
    elif [[ $line =~ ^$name\ different(\ at\ (.*))?,\ element\  ]]; then
      tell_difference "${BASH_REMATCH[2]-}" "${@:2}"
    elif [[ $line =~ ^rejected\ at\ line\  ]]; then
      tell rejected
    elif [[ $line == 'rejected: too long' ]]; then
      tell 'rejected too long'
    elif [[ $line == 'halted: '* ]]; then
      tell_halt "$line"
    fi
  done < <(grep -aE -A 1 "^($name (unknown|different)|stopped|rejected|halted)" "$1" | cut -b -4000)
  [ -z "$kind" ] || tell "$kind"
}

# Tells of what stands in a file, the output of a run with these words that ended with a status.
tell_output() {
  local text=''
  case $2 in
    3 | 4 | 5 | 7) text=$(< "$1") ;;
  esac
  case $2 in
    3) tell_refusal "$text" "${@:3}" ;;
    4) tell 'read fault' ;;
    5) [[ $text != *': write fault' ]] || tell 'write fault' ;;
    6) tell memory ;;
    7)
      # (that of `gen` is its last line, and names no file)
      if [ "${3-}" = gen ]; then tell_halt "${text##*$'\n'}"; else tell_halt "$text" "${@:3}"; fi
      ;;
    8 | 10 | 20) tell_answers "$1" "${@:3}" ;;
  esac
}

# Hands a signal on to the program.
running='' interrupted=''
hand_on() {
  interrupted=1
  [ -z "$running" ] || kill -s "$1" "$running" 2> /dev/null
}

# Waits for a child of this shell, as long as signals are handed on; the status is in ended.
wait_for() {
  local status
  ended=''
  while :; do
    interrupted=''
    { wait "$1"; } 2> /dev/null
    status=$?
    # (127: its status was given before)
    if [ -z "$ended" ] || [ "$status" -ne 127 ]; then ended=$status; fi
    [ -n "$interrupted" ] || return
  done
}

# Runs the program, copies its output while it passes through, and shows hints behind it. It returns if no copy can be made, and nothing ran.
run_with_hints() {
  local copy pipe copier copied signal status
  copy=$(mktemp 2> /dev/null) || return
  for signal in HUP INT QUIT TERM; do trap "hand_on $signal" "$signal"; done
  exec {pipe}> >(trap '' HUP INT QUIT TERM; exec tee -- "$copy" 2> /dev/null)
  copier=$!
  (
    trap - HUP INT QUIT TERM
    exec "$program" "$@"
  ) <&0 >&"$pipe" {pipe}>&- &
  running=$!
  exec {pipe}>&-
  wait_for "$running"
  status=$ended running=''
  wait_for "$copier"
  copied=$ended
  # the output was not written, unless it is the copy that cannot be
  if [ "$copied" -gt 128 ] || { [ "$copied" -ne 0 ] && { echo >> "$copy"; } 2> /dev/null; }; then
    [ "$status" -gt 128 ] || status=5
  elif [ "$copied" -eq 0 ] && [ "$status" -ne 0 ] && [ "$status" -le 128 ]; then
    tell_output "$copy" "$status" "$@"
  fi
  rm -f -- "$copy"
  trap - HUP INT QUIT TERM
  if [ "$status" -gt 128 ]; then
    ulimit -S -c 0
    kill -s "$((status - 128))" $$
  fi
  exit "$status"
}
