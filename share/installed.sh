#!/bin/sh
# The command pasask where bin/install put it: it runs the program that lies beside it.
prefix=$(readlink -f "$0")
prefix=${prefix%/*/*}
program=$prefix/libexec/pasask/pasask
share=$prefix/share/pasask
guide=$prefix/share/doc/pasask/GUIDE.md
revision=''
# shellcheck source=share/pasask.sh
. "$share/pasask.sh"

case ${1-} in --version) revision=$(cat "$share/revision") ;; esac
answer_at_once "$@"
run_program "$@"
