#!/bin/sh
# Takes away what install.sh installed: the files of INSTALLED beside this script, and the folders that it made, where they are empty.
set -eu
library=$(CDPATH= cd -- "$(dirname -- "$(readlink -f -- "$0")")" && pwd)
prefix=${library%/lib/kmsrest}
list=$library/INSTALLED
if [ ! -f "$list" ] || [ "$prefix" = "$library" ]; then
  echo "uninstall.sh: nothing was installed here by install.sh" >&2
  exit 1
fi
names=$(cat "$list")
[ -w "$library" ] || { echo "uninstall.sh: $library can't be written to: root's rights are needed" >&2; exit 1; }
# (Python leaves these beside its sources)
find "$library" -depth -type d -name __pycache__ -exec rm -rf {} +
printf '%s\n' "$names" | grep -v '/$' | (cd "$prefix" && xargs rm -f --)
# Folders from below, each where nothing else stands in it.
printf '%s\n' "$names" | grep '/$' | LC_ALL=C sort -r | while IFS= read -r name; do
  rmdir -- "$prefix/$name" 2>/dev/null || :
done
