#!/bin/sh
# Whether narrow.py does what it says: a small module with each kind of access is made, and called by Node.
set -eu
unset CDPATH # it would lead `cd` elsewhere
here=$(cd "$(dirname "$0")" && pwd)
work=$(mktemp -d)
trap 'rm -rf "$work"' EXIT
"$here/link.sh" "$work/test.wasm" --export-all "$here/narrow_test.c" "$here/helpers.c"
node "$here/narrow_check.mjs" "$work/test.wasm"
