# shellcheck shell=sh
# Whether the program is built. The script that reads this file says where the repository is: `top`.
: "${top:?}"

program=$top/crates/pasask/out/pasask
# bin/build-pasask makes this file once the program is whole, as old as the beginning of its build.
built=$top/crates/pasask/out/built

# The crates of the program.
crates() {
    awk -F: '
        function visit(name, needed, count, i) {
            if (name in seen || !(name in needs)) return
            seen[name]
            count = split(needs[name], needed, " ")
            for (i = 1; i <= count; i++) visit(needed[i])
            print name
        }
        /^[a-z]/ { needs[$1] = $2 }
        END { visit("pasask") }
    ' "$top/crates.txt"
}

# The files from which the program is made that are newer than it.
newer_sources() {
    # shellcheck disable=SC2046 # names of crates have no blanks
    (cd "$top/crates" &&
        find ../crates.txt $(crates) -name out -prune -o \( -name '*.rt' -o -name '*.antt' -o -name crates.txt \) \
            -newer "$built" -print)
}

# Whether the program has to be built.
is_old() {
    if [ ! -x "$program" ] || [ ! -e "$built" ]; then return 0; fi
    [ -n "$(newer_sources)" ]
}

# Which text this is, where git knows.
revision_of_text() {
    git -C "$top" rev-parse --short HEAD 2>/dev/null
}
