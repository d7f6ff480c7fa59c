# What a program of this checkout is made of, and whether it is of the sources as they stand. ./kmsrest reads this file; `top` is
# its folder.

# What is removed where the call ends before its time, by Ctrl-C too. A child's group, by its number, is ended before.
made=() group=

clear_made() {
  local turn
  if [ -n "$group" ]; then
    kill -- "-$group" 2>/dev/null
    # (the kit's `rt` ends what it began in groups of their own)
    for turn in {1..100}; do
      kill -0 -- "-$group" 2>/dev/null || break
      sleep 0.05
    done
    kill -KILL -- "-$group" 2>/dev/null
  fi
  [ "${#made[@]}" = 0 ] || rm -rf "${made[@]}"
  made=() group=
}

trap clear_made EXIT
trap 'exit 129' HUP
trap 'exit 130' INT
trap 'exit 143' TERM

# choose NAME: sets `needed`, the crates that this program stands on and its own, each behind those that it stands on.
choose() {
  local crate
  needed=$(awk -v program="$1" '
    { sub(/#.*/, "") }
    /:/ { split($0, part, ":"); split(part[1], head, " "); below[head[1]] = part[2] }
    function visit(name, deps, count, at) {
      if (!(name in below) || name in seen) return
      seen[name] = 1
      count = split(below[name], deps, " ")
      for (at = 1; at <= count; at++) visit(deps[at])
      print name
    }
    END { visit(program) }' "$top/crates.txt")
  folders=()
  for crate in $needed; do folders+=("crates/$crate"/{src,specs}); done
}

# The lines of the needed crates in the list of crates below a folder.
listed() { grep -E "^(${needed//$'\n'/|})[ :]" "$1/crates.txt"; }

# within FOLDER WORD..: what `find` finds of the needed crates' folders there by these words.
within() { (cd "$1" && find "${folders[@]}" "${@:2}" 2>/dev/null); }

# sums FOLDER PROGRAM: a line for the program, for the list of crates, and for each source below the folder.
sums() {
  sha256sum <"$2"
  listed "$1" | sha256sum | sed 's/-$/crates.txt/'
  within "$1" -type f -print0 | LC_ALL=C sort -z | (cd "$1" && xargs -0 -r sha256sum)
}

# keep_sums PROGRAM TEXT SECOND: leaves the sums beside the program, as old as that second, where this can be written.
keep_sums() {
  local text=$1.sources.$$
  made+=("$text")
  printf '%s\n' "$2" >"$text" && touch -d "@$3" "$text" && mv "$text" "$1.sources" || rm -f "$text"
} 2>/dev/null

# is_current PROGRAM [RECORDED]: whether the program is of the sources as they stand; `changed` is a file that stands against it.
# Contents decide where a record of its sums lies beside it: they are compared where anything was touched since they last were.
# Without such a record, as behind the gate, times decide, and the record is made then; with RECORDED it has none of these sources.
is_current() {
  local program=$1 record=$1.sources now began=$((EPOCHSECONDS - 1))
  changed=
  [ -x "$program" ] || return 1
  if [ -f "$record" ]; then
    [ -n "$(within "$top" -cnewer "$record" -print -quit; find "$program" "$top/crates.txt" -cnewer "$record" -print -quit)" ] || return 0
    now=$(sums "$top" "$program")
    if [ "${now%%$'\n'*}" = "$(head -n 1 "$record")" ]; then
      changed=$(diff "$record" - <<<"$now" | sed -n 's/^[<>] [0-9a-f]*  //p' | head -n 1)
      [ -n "$changed" ] || keep_sums "$program" "$now" "$began"
      [ -n "$changed" ] || return 0
      # (the same program may have been built once more, of what is here now)
      [ -z "$(within "$top" -cnewer "$program" -print -quit)" ] || return 1
    fi
  fi
  [ -z "${2-}" ] || return 1
  changed=$(within "$top" -type f -newer "$program" -print -quit)
  [ -z "$changed" ] || return 1
  keep_sums "$program" "$(sums "$top" "$program")" "$began"
}

# copy_sources PART..: copies these parts of the needed crates, and what stands of them at the top, into `room`.
copy_sources() {
  local crate part
  mkdir "$room/crates"
  listed "$top" >"$room/crates.txt"
  cp "$top/HANDLES" "$room/"
  for crate in $needed; do
    mkdir "$room/crates/$crate"
    for part in "$@"; do
      [ ! -e "$top/crates/$crate/$part" ] || cp -r "$top/crates/$crate/$part" "$room/crates/$crate/"
    done
  done
}

# Makes `room`, an empty folder, and `log`, an empty file.
make_room() {
  log=$(mktemp) && made+=("$log") && room=$(mktemp -d) && made+=("$room") ||
    fail "it builds in ${TMPDIR:-/tmp}, where nothing can be made; set TMPDIR to another folder"
}

# place FILE PROGRAM SUMS SECOND: puts a built file where its program lies, with its sums, each in one move and as old as that second:
# what was changed while it was built is newer.
place() {
  local text=$2.$$
  made+=("$text")
  mkdir -p "${2%/*}" && cp "$1" "$text" && touch -d "@$4" "$text" && mv "$text" "$2" || fail "${2%/*} can't be written"
  keep_sums "$2" "$3" "$4"
}

# fail_by_log TEXT: ends the call with the log's end, and keeps the log.
fail_by_log() {
  tail -n 40 "$log" >&2
  made=("$room")
  fail "$1; the whole log is $log"
}
