# Whether a Pascal source reads input: after its heading one of these words stands outside of comments and strings. The
# status is 0 where one does. awk -f reads_input.awk SOURCE

# A line without its comments and strings. `in_comment` goes on from line to line.
function code_of(line, code) {
    while (line != "") {
        if (in_comment) {
            if (!match(line, /[}]|[*][)]/)) return code
            in_comment = 0
        } else {
            if (!match(line, /[{]|[(][*]|'[^']*'?/)) return code line
            code = code substr(line, 1, RSTART - 1) " "
            in_comment = substr(line, RSTART, 1) != "'"
        }
        line = substr(line, RSTART + RLENGTH)
    }
    return code
}

{
    code = code_of(tolower($0))
    if (!is_past_heading) {
        is_past_heading = index(code, ";")
        if (!is_past_heading) next
        code = substr(code, is_past_heading)
    }
    if ((" " code " ") ~ /[^a-z0-9](read|readln|eof|eoln|input)[^a-z0-9]/) {
        found = 1
        exit
    }
}

END { exit !found }
