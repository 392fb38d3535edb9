#!/bin/sh
# compile.sh MODULE.bc OUT.wasm: compiles a module of LLVM's code that was made for x86-64 for WebAssembly, where it exports
# pasask_turn. Pointers have 64 bits in both, so each layout of the data stays as it was.
# What target.sh sets is not seen by shellcheck.
# shellcheck disable=SC1091,SC2154
set -eu
unset CDPATH # it would lead `cd` elsewhere
here=$(cd "$(dirname "$0")" && pwd)
. "$here/target.sh"
module=$1 out=$2
work=$(mktemp -d)
trap 'rm -rf "$work"' EXIT

"$tools/clang" --no-default-config --target=x86_64-unknown-linux-gnu -x ir -S -emit-llvm "$module" -o "$work/x86.ll"
# What belongs to x86-64 is replaced or goes: the layout of data, the processor, how it probes its stack, and the one
# instruction that is asked for by name.
sed -e "s/^target datalayout = .*/target datalayout = \"$layout\"/" \
    -e 's/^target triple = .*/target triple = "wasm64-unknown-unknown"/' \
    -e '/^attributes /s/ "probe-stack"="[^"]*"//' \
    -e '/^attributes /s/ "stack-probe-size"="[^"]*"//' \
    -e '/^attributes /s/ "frame-pointer"="[^"]*"//' \
    -e "/^attributes /s/ \"target-cpu\"=\"[^\"]*\"/ \"target-cpu\"=\"mvp\" \"target-features\"=\"$features\"/" \
    -e '/^declare .*@llvm\.x86\.ssse3\.pshuf\.b\.128(/d' \
    -e 's/@llvm\.x86\.ssse3\.pshuf\.b\.128(/@shuffled_bytes(/' \
    "$work/x86.ll" >"$work/module.ll"
cat "$here/shuffle.ll" >>"$work/module.ll"
if grep -q '@llvm\.x86\.' "$work/module.ll"; then
    echo "compile.sh: the module asks for other instructions of x86-64 by name" >&2
    exit 1
fi
# shellcheck disable=SC2086
"$tools/clang" $flags -O3 -ffunction-sections -fdata-sections -mllvm -expand-div-rem-bits=64 \
    -mllvm -expand-fp-convert-bits=64 -c -x ir "$work/module.ll" -o "$work/module.o"
"$here/link.sh" "$out" --export=pasask_turn "$work/module.o" "$here/heap.c" "$here/helpers.c"
