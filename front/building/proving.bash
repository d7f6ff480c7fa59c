# Proves and builds the program. ./kmsrest reads this file behind current.bash.

# What is so now, in one line that is written over; on a terminal alone.
show() {
  [ ! -t 2 ] || printf '\r\033[Kkmsrest: %s' "$1" >&2
}

# What has happened, in a line of its own; elsewhere than on a terminal.
tell() {
  [ -t 2 ] || echo "kmsrest: $1" >&2
}

# Proves a copy of the needed crates alone by tools/dev/prove, which is `rt ci` but for their wrong bodies, the search for contracts
# that no call can meet, the second compiler, and who gets which processor. It builds the program and runs it once. Where the kit
# keeps what is proved, a build that was ended is taken up again.
prove() {
  local crate all ended done_crates active text
  declare -A began=() proved=()
  all=$(wc -w <<<"$needed")
  (cd "$room" && exec setsid "$top/tools/dev/prove" --to-run </dev/null >"$log" 2>&1) &
  group=$!
  while kill -0 "$group" 2>/dev/null; do
    sleep 2
    done_crates=$(sed -n 's/^== \([a-z0-9_]*\)$/\1/p' "$log")
    for crate in $done_crates; do
      [ -z "${proved[$crate]-}" ] || continue
      proved[$crate]=1
      tell "$crate is done, ${#proved[@]} of $all, after $((SECONDS - ${began[$crate]:-SECONDS})) seconds"
    done
    active=$(find /proc -maxdepth 2 -name cwd -lname "$room/crates/*" -printf '%l\n' 2>/dev/null |
      sed "s|^$room/crates/||; s|/.*||" | sort -u)
    text=
    for crate in $active; do
      if [ -z "${began[$crate]-}" ]; then
        began[$crate]=$SECONDS
        tell "proving $crate, ${#began[@]} of $all"
      fi
      [ -n "${proved[$crate]-}" ] || text="$text${text:+, }$crate for $((SECONDS - began[$crate])) s"
    done
    show "proving, ${#proved[@]} of $all crates done${text:+; now }$text"
  done
  wait "$group"
  ended=$?
  group=
  return "$ended"
}

# build PROGRAM: proves and builds it, and leaves it there with the sums of what was proved.
build() {
  local status began=$((EPOCHSECONDS - 1)) built
  make_room
  echo "kmsrest: proving and building: some 40 minutes on four processors, where nothing is proved yet" >&2
  copy_sources src specs proofs args stdin stdout
  prove
  status=$?
  [ ! -t 2 ] || printf '\r\033[K' >&2
  built=$room/crates/kmsrest/out/kmsrest
  [ "$status" = 0 ] && [ -x "$built" ] || fail_by_log "it could not be built"
  place "$built" "$1" "$(sums "$room" "$built")" "$began"
  is_current "$1" recorded || fail "$changed was changed while it was built; call it again"
  clear_made
}
