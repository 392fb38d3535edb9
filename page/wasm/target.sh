#!/bin/sh
# target.sh: what the other scripts of this folder say of WebAssembly, to be read by them with `.`
#
# Nothing is asked for that browsers of 2021 lack: numbers are rounded and extended, and bytes moved, by single instructions.
tools=$(dirname "$(rt doc)")/toolchain/bin
features=+bulk-memory,+mutable-globals,+nontrapping-fptoint,+sign-ext
flags="--no-default-config --target=wasm64-unknown-unknown -mcpu=mvp -mbulk-memory -mmutable-globals -mnontrapping-fptoint -msign-ext"
layout=e-m:e-p:64:64-p10:8:8-p20:8:8-i64:64-i128:128-n32:64-S128-ni:1:10:20
# The deepest source takes 1 MB of the stack (test/page/stack.mjs). It lies below all else, so one that runs over ends in a trap.
stack=4194304
# The last 16 MiB below 4 GiB stay empty.
most=4278190080
export tools features flags layout stack most
