#!/bin/sh
# build.sh OUT.wasm: proves the crate web_exports, makes the page's module of the code that the kit writes for it, and prints
# the kit's line `logic=proved ..`. The libraries below it are built first where they are not.
#
# build.sh --try OUT.wasm does the same with code of which nothing is proved, in a few minutes, and prints `nothing is proved`.
set -eu
unset CDPATH # it would lead `cd` elsewhere
here=$(cd "$(dirname "$0")" && pwd)
top=$(cd "$here/../.." && pwd)
is_try=
if [ "${1:-}" = --try ]; then
    is_try=1
    shift
fi
[ $# -eq 1 ] || { echo "usage: build.sh [--try] OUT.wasm" >&2; exit 2; }
out=$1
work=$(mktemp -d)
trap 'rm -rf "$work"' EXIT

# rt try compiles for a sanitizer, and by then the code is there.
STOP=${is_try:+-fsanitize=address} "$here/watch_clang.sh" "$work"
if [ -n "$is_try" ]; then
    "$here/try.sh" "$top" "$work"
    verdict="nothing is proved"
else
    # The archive is removed so that its code is written anew.
    rm -f "$top/crates/web_exports/out/libweb_exports.a"
    (cd "$top/crates/web_exports" && python3 "$work/kit/bin/rt" lib) >"$work/log" 2>&1 || { tail -n 20 "$work/log" >&2; exit 1; }
    # Where libraries were built before it, each of them has a line, too.
    verdict=$(grep '^logic=proved ' "$work/log" | tail -n 1)
    [ -n "$verdict" ] || { echo "build.sh: no line logic=proved came" >&2; exit 1; }
fi
"$here/compile.sh" "$work/got/module.bc" "$out"
echo "$verdict"
