#!/bin/sh
# link.sh OUT.wasm OPTION FILE..: links objects and files of C to a module with addresses of 32 bits. OPTION says what it
# exports, as --export=NAME.
# What target.sh sets is not seen by shellcheck.
# shellcheck disable=SC1091,SC2154
set -eu
unset CDPATH # it would lead `cd` elsewhere
here=$(cd "$(dirname "$0")" && pwd)
. "$here/target.sh"
out=$1 exports=$2
shift 2
work=$(mktemp -d)
trap 'rm -rf "$work"' EXIT

objects=
for it in "$@"; do
    case $it in
        *.c)
            made=$work/$(basename "$it" .c).o
            # shellcheck disable=SC2086
            "$tools/clang" $flags -O2 -ffreestanding -nostdinc -fwrapv -Wall -Wextra -Werror -c "$it" -o "$made"
            objects="$objects $made"
            ;;
        *) objects="$objects $it" ;;
    esac
done
# shellcheck disable=SC2086
"$tools/ld.lld" -flavor wasm -mwasm64 --no-entry --stack-first -z "stack-size=$stack" "--max-memory=$most" --gc-sections \
    --threads=1 --strip-all "$exports" -o "$work/wide.wasm" $objects
python3 "$here/narrow.py" "$work/wide.wasm" "$out"
