#!/bin/sh
# Installs this release below a prefix.
#
#   ./install.sh [--prefix P]    P is /usr/local where nothing is said
#
# It writes P/bin, P/lib/kmsrest and P/share, over an older kmsrest of this way if there is one, and over nothing else.
# P/lib/kmsrest/uninstall.sh takes it away again.
set -eu
umask 022

fail() {
  echo "install.sh: $1" >&2
  exit 1
}

prefix=/usr/local
while [ "$#" != 0 ]; do
  case $1 in
    --prefix=*) prefix=${1#--prefix=} ;;
    --prefix)
      [ "$#" -gt 1 ] || fail "--prefix wants a folder"
      prefix=$2
      shift
      ;;
    -h | --help)
      sed -n 's/^# \{0,1\}//; 2,7p' "$0"
      exit 0
      ;;
    *) fail "what is $1? ./install.sh [--prefix P]" ;;
  esac
  shift
done
[ -n "$prefix" ] || fail "--prefix wants a folder"
# (from where the caller stands)
case $prefix in /*) ;; *) prefix=$PWD/$prefix ;; esac
here=$(CDPATH= cd -- "$(dirname -- "$0")" && pwd)
cd "$here"
[ "$(uname -s) $(uname -m)" = "Linux x86_64" ] || fail "this release is for Linux on x86_64"
sha256sum --check --quiet --strict SHA256SUMS >&2 || fail "this isn't the release as it was made: SHA256SUMS tells which file"
mkdir -p -- "$prefix" || fail "$prefix can't be made"
prefix=$(CDPATH= cd -- "$prefix" && pwd)
case $prefix/ in "$here"/*) fail "$prefix stands in the release itself; it runs from here as it is" ;; esac
[ -w "$prefix" ] || fail "$prefix can't be written to: another --prefix, or root's rights"
library=$prefix/lib/kmsrest list=$prefix/lib/kmsrest/INSTALLED

# What stands in the way, and isn't of an older kmsrest of this way.
lines() { printf '%s\n' "$@" | sed '/^$/d' | LC_ALL=C sort -u; }
names=$(find bin lib share ! -type d | LC_ALL=C sort)
older=
[ ! -f "$list" ] || older=$(cat "$list")
there=
for name in $names; do
  if [ -e "$prefix/$name" ] || [ -L "$prefix/$name" ]; then there="$there$name
"; fi
done
strange=$(lines "$there" | { grep -vxF -e "$older" || :; } | head -n 1)
[ -z "$strange" ] || fail "$prefix/$strange is there, and isn't of a kmsrest that was installed so"

# The list has what is there and what comes until all is copied, so that an installation that was stopped can be taken away too.
made=$(printf '%s\n' "$older" | grep '/$' || :)
for folder in $(find bin lib share -type d | LC_ALL=C sort); do
  [ -d "$prefix/$folder" ] || made="$made
$folder/"
  mkdir -p -- "$prefix/$folder"
done
lines "$names" "$older" "$made" lib/kmsrest/INSTALLED >"$list.draft"
mv -f -- "$list.draft" "$list"
printf '%s\n' "$names" | tar -c --no-recursion -T - | tar -x --no-same-owner -C "$prefix" ||
  fail "not all could be copied; $library/uninstall.sh takes away what was"
lines "$names" "$made" lib/kmsrest/INSTALLED >"$list.draft"
# What an older one had and this one hasn't.
lines "$older" | { grep -vxF -f "$list.draft" || :; } | while IFS= read -r name; do rm -f -- "$prefix/$name"; done
mv -f -- "$list.draft" "$list"
echo "kmsrest $(cat "$library/VERSION") is installed: $prefix/bin/kmsrest"
case :$PATH: in *":$prefix/bin:"*) ;; *) echo "$prefix/bin isn't on the path" ;; esac
