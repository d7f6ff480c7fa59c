# Builds a draft: a program that isn't proved. ./kmsrest reads this file behind current.bash.

# draft NAME PROGRAM: builds this program's draft where none there is of the sources as they stand.
draft() {
  local began=$((EPOCHSECONDS - 1)) second=$SECONDS python
  ! is_current "$2" recorded || return 0
  command -v rt >/dev/null 2>&1 || fail "there is no \`rt\` on the path to draft $1 by: it is of $kit"
  python=$(python_here) || fail "a draft needs Python 3"
  make_room
  echo "kmsrest: drafting $1, which proves nothing: some three minutes of one processor" >&2
  copy_sources src specs
  setsid "$python" -IB "$top/front/building/drafting.py" "$room" "$1" </dev/null 2>"$log" &
  group=$!
  wait "$group" || fail_by_log "$1 could not be drafted"
  group=
  place "$room/$1" "$2" "$(sums "$room" "$room/$1")" "$began"
  clear_made
  echo "kmsrest: drafted in $((SECONDS - second)) seconds: ${2#"$PWD/"}" >&2
}
