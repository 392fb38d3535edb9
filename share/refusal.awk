# Says in words why a source is refused, and shows where: a sentence, the line of the source, and a caret under the token.
#
#     LC_ALL=C awk -f refusal.awk -v name=SHOWN refusals.tsv SOURCE SCREEN
#
# SCREEN is what pasask printed, with a line such as `refused: Rule 20, line 1, byte 52`; where it has none, nothing is
# printed. SHOWN is the name of the source that is printed. A column counts characters from 1, and a tab is one of them.
# Where the source ends too early, the place right after its last token is shown. `refusals.js` is the same program for a
# browser; the sentences stand in refusals.tsv, and the language of their conditions is explained there. With `-v show_row=1` a
# fourth line tells which of the refusal's rows was taken.

BEGIN {
    if (length("\303\244") != 2) fail("it counts bytes: run it with LC_ALL=C")
    if (ARGC != 4) fail("usage: awk -f refusal.awk -v name=SHOWN refusals.tsv SOURCE SCREEN")
    if (!read_screen(ARGV[3])) exit 0
    if (name == "") name = ARGV[2]
    name_the_alphabet()
    read_table(ARGV[1])
    read_source(ARGV[2])
    aim_at_the_token()
    walk()
    print name ":" shown_line ":" shown_column ": " first_sentence()
    show_the_line(lines[shown_line], shown_byte)
    if (show_row) print "row " row
    exit 0
}

function fail(why) {
    print "refusal.awk: " why > "/dev/stderr"
    exit 2
}

# ---- the screen

# Whether the screen has a refusal; keeps its reason and its byte.
function read_screen(file,    line, parts) {
    while ((getline line < file) > 0) {
        sub(/\r$/, "", line)
        if (line ~ /^refused: [A-Za-z]+( [0-9]+)?, line [0-9]+, byte [0-9]+$/) {
            split(substr(line, 10), parts, ", ")
            refusal = parts[1]
            target = substr(parts[3], 6) + 0
            return 1
        }
    }
    return 0
}

# ---- the alphabet

function name_the_alphabet(    i) {
    for (i = 0; i < 256; i++) code[sprintf("%c", i)] = i
    for (i = 97; i <= 122; i++) class[sprintf("%c", i)] = class[toupper(sprintf("%c", i))] = "letter"
    for (i = 48; i <= 57; i++) class[sprintf("%c", i)] = "digit"
    class[" "] = class["\t"] = class["\r"] = class["\f"] = "blank"
    put_all(class, "; , = + - [ ] ) ^", "alone")
    put_all(is_pair, "<> <= >= := .. (. .) (* //", 1)
    put_all(is_word, "and array begin case const div do downto else end file for function goto if in label mod nil not of or packed", 1)
    put_all(is_word, "procedure program record repeat set then to type until var while with", 1)
    put_all(is_symbol, "+ - * / = < > [ ] . , : ; ^ ( ) <> <= >= := .. // { (*", 1)
    # What a token does to the place where the walk stands. One that is not listed belongs to an expression.
    put_all(role, "+ - * / = <> < <= > >= in and or not div mod ..", "operator")
    put_all(role, "begin case repeat record ( [", "opening")
    put_all(role, "end until ) ]", "closing")
    put_all(role, "label const type var procedure function", "part")
    put_all(role, "program if then else while do for to downto with of goto array packed set file : :=", "other")
    role[";"] = "semicolon"
    role[","] = "comma"
}

function put_all(array, spellings, value,    words, count, i) {
    count = split(spellings, words, " ")
    for (i = 1; i <= count; i++) array[words[i]] = value
}

# The kind of a token with this spelling.
function kind_of(spelling) {
    if (spelling == "END" || spelling == "NONE") return spelling
    if (spelling in is_word) return "WORD"
    if (spelling in is_symbol) return "SYMBOL"
    if (spelling ~ /^[a-z]/) return "NAME"
    if (spelling ~ /^[0-9]+$/) return "NUMBER"
    if (spelling == "'") return "STRING"
    if (spelling ~ /^U[+]00([01].|7F)$/) return "CONTROL"
    if (spelling ~ /^U[+]/) return "FOREIGN"
    if (spelling ~ /^BYTE/) return "BYTE"
    return "CHARACTER"
}

# ---- the table

# Keeps the rows of the refusal, and the sets, each written out.
function read_table(file,    line, columns) {
    while ((getline line < file) > 0) {
        sub(/\r$/, "", line)
        if (line == "" || line ~ /^#/) continue
        if (split(line, columns, "\t") != 3) fail("a row of " file " has not three columns: " line)
        if (columns[1] == "set") sets[columns[2]] = written_out(columns[3])
        else if (columns[1] == refusal) {
            conditions[++rows] = columns[2]
            sentences[rows] = columns[3]
        }
    }
}

# A list in which each set is replaced by what it holds.
function written_out(list,    words, count, i, all) {
    count = split(list, words, " ")
    for (i = 1; i <= count; i++) all = all " " (words[i] in sets ? sets[words[i]] : words[i])
    return all " "
}

# The sentence of the first row whose condition holds.
function first_sentence(    i) {
    for (i = 1; i <= rows && !holds(conditions[i]); i++) { }
    if (i <= rows) {
        row = i
        return filled_in(sentences[i])
    }
    return "pasask refuses the source here: " refusal "."
}

function holds(condition,    terms, count, i) {
    if (condition == "always") return 1
    count = split(condition, terms, / & /)
    for (i = 1; i <= count; i++) if (!is_true(terms[i])) return 0
    return 1
}

function is_true(term,    denied, gap, where) {
    denied = term ~ /^not /
    if (denied) term = substr(term, 5)
    gap = index(term, " ")
    where = substr(term, 1, gap - 1)
    if (!(where in places)) fail("no such place: " where)
    return meets(places[where], written_out(substr(term, gap + 1))) != denied
}

# Whether one of the spellings, or its kind, is among the values.
function meets(spellings, values,    words, count, i) {
    count = split(spellings, words, " ")
    for (i = 1; i <= count; i++)
        if (index(values, " " words[i] " ") || index(values, " " kind_of(words[i]) " ")) return 1
    return 0
}

function filled_in(text,    result, key) {
    while (match(text, /[{][a-z][a-z0-9 ]*[}]/)) {
        key = substr(text, RSTART + 1, RLENGTH - 2)
        if (!(key in words_for)) fail("no such word: {" key "}")
        result = result substr(text, 1, RSTART - 1) words_for[key]
        text = substr(text, RSTART + RLENGTH)
    }
    return result text
}

# ---- the source

function read_source(file,    line, start) {
    while ((getline line < file) > 0) {
        lines[++line_count] = line
        starts[line_count] = start + 0
        start += length(line) + 1
    }
}

# Finds the name or number at the target, so that the walk knows it when it stands elsewhere.
function aim_at_the_token(    i, text) {
    for (i = 1; i < line_count && starts[i + 1] <= target;) i++
    text = substr(lines[i], target - starts[i] + 1)
    if (match(text, /^[A-Za-z][A-Za-z0-9]*/) || match(text, /^[0-9]+/)) aim = tolower(substr(text, 1, RLENGTH))
}

# Takes the tokens one by one: up to the target, and then as far as is needed.
function walk(    i) {
    depth = blocks = 0
    since[0] = opener[0] = called[0] = "NONE"
    before = before2 = "NONE"
    block[0] = "program"
    for (i = 1; i <= line_count && !done; i++) walk_line(lines[i], i)
    if (!done) take("END", "", line_count, length(lines[line_count]) + 1)
    describe()
}

# Takes the tokens of one line. A window moves over a long one, since each part that is taken of a text is a copy.
function walk_line(line, number,    size, window, behind, at, byte, rest, length_of, text, spelling) {
    size = length(line)
    window = substr(line, 1, 400)
    behind = 0
    at = 1
    while (at <= size) {
        if (at - behind > 200) {
            behind = at - 1
            window = substr(line, at, 400)
        }
        if (in_comment) {
            at = after_comment(line, at)
            continue
        }
        byte = substr(window, at - behind, 1)
        if (class[byte] == "blank") {
            at++
            continue
        }
        if (class[byte] == "alone") {
            take(byte, byte, number, at++)
            if (done) return
            continue
        }
        rest = substr(window, at - behind)
        length_of = token_length(rest, byte)
        # A token that may go on behind the window is taken from the line.
        if (length(rest) - length_of < 3 && at + length(rest) <= size) {
            rest = substr(line, at)
            length_of = token_length(rest, byte)
        }
        text = substr(rest, 1, length_of)
        spelling = spelling_of(text, byte)
        if ((spelling == "{" || spelling == "(*") && (met || starts[number] + at - 1 < target)) in_comment = 1
        else take(spelling, text, number, at)
        if (done) return
        at += length_of
    }
}

# The place after the comment, or after the line where it goes on on the next one.
function after_comment(line, at,    part, brace, star, size) {
    size = length(line)
    for (; at <= size; at += 200) {
        part = substr(line, at, 201)
        brace = index(part, "}")
        star = index(part, "*)")
        if (brace && (!star || brace < star)) {
            in_comment = 0
            return at + brace
        }
        if (star) {
            in_comment = 0
            return at + star + 1
        }
    }
    return size + 1
}

# How many bytes the token has that stands first and begins with this byte. A number goes on over a fraction, a scale factor and
# letters, so that one that is refused is shown whole.
function token_length(rest, byte,    digits) {
    if (class[byte] == "letter") {
        match(rest, /^[A-Za-z0-9]+/)
        return RLENGTH
    }
    if (class[byte] == "digit") {
        match(rest, /^[0-9]+/)
        digits = RLENGTH
        rest = substr(rest, digits + 1)
        if (match(rest, /^[.][0-9]+([eE][-+]?[0-9]+)?/) || match(rest, /^[eE][-+]?[0-9]+/) || match(rest, /^[A-Za-z0-9]+/))
            return digits + RLENGTH
        return digits
    }
    if (byte == "'") return string_length(rest)
    return substr(rest, 1, 2) in is_pair ? 2 : character_length(rest, 1)
}

# A string goes to the last apostrophe that can end it, or to the end of the line.
function string_length(rest,    end, gap) {
    while (gap = index(substr(rest, end + 2), "'")) {
        end += gap + 1
        if (substr(rest, end + 1, 1) != "'") break
    }
    return end ? end : length(rest)
}

# A token in small letters, and each special symbol in one way.
function spelling_of(text, byte) {
    if (class[byte] != "") return tolower(text)
    if (byte == "'") return "'"
    if (text in is_symbol) return text
    if (text == "@") return "^"
    if (text == "(.") return "["
    if (text == ".)") return "]"
    if (text ~ /^[!-~]$/ && text != "&") return text
    return code_of(text)
}

# ---- characters

# How many bytes the character has that begins here in UTF-8. A byte that begins none is a character by itself.
function character_length(text, at,    first, size, i) {
    first = code[substr(text, at, 1)]
    size = first >= 194 && first < 224 ? 2 : first >= 224 && first < 240 ? 3 : first >= 240 && first < 245 ? 4 : 1
    for (i = 1; i < size; i++) if (int(code[substr(text, at + i, 1)] / 64) != 2 || at + i > length(text)) return 1
    return size
}

# What a character that is no token is called: U+00E4, or BYTE-228 where it is none in UTF-8.
function code_of(text,    number, i) {
    if (length(text) == 1) {
        number = code[text]
        return number < 128 ? sprintf("U+%04X", number) : "BYTE-" number
    }
    number = code[substr(text, 1, 1)] % (length(text) == 2 ? 32 : length(text) == 3 ? 16 : 8)
    for (i = 2; i <= length(text); i++) number = number * 64 + code[substr(text, i, 1)] % 64
    return sprintf("U+%04X", number)
}

# The text as it can be printed: tabs stay, and a control character or a byte that is none in UTF-8 becomes a question mark.
function printable(text,    result, at, size, part) {
    sub(/\r$/, "", text)
    if (text !~ /[^\t -~]/) return text
    for (at = 1; at <= length(text); at += size) {
        size = character_length(text, at)
        part = substr(text, at, size)
        result = result (size > 1 || part ~ /[\t -~]/ ? part : "?")
    }
    return result
}

# How many characters the first bytes of a text have.
function characters_in(text, bytes,    count, at) {
    if (substr(text, 1, bytes) !~ /[^\t -~]/) return bytes
    for (at = 1; at <= bytes; at += character_length(text, at)) count++
    return count + 0
}

# A text for a sentence, shortened where it is long.
function quoted(text) {
    text = printable(text)
    return length(text) > 40 ? printable(cut_at(text, 36)) ".." : text
}

# The first bytes of a text, but no part of a character.
function cut_at(text, bytes) {
    while (bytes > 0 && int(code[substr(text, bytes + 1, 1)] / 64) == 2) bytes--
    return substr(text, 1, bytes)
}

# Prints the line and a caret below this byte of it. Of a long line only what stands around is printed.
function show_the_line(line, byte,    from, to, lead) {
    from = byte > 120 ? byte - 80 : 1
    while (from > 1 && int(code[substr(line, from, 1)] / 64) == 2) from--
    to = length(line) > from + 159 ? length(cut_at(line, from + 119)) : length(line)
    lead = from > 1 ? ".." : ""
    print lead printable(substr(line, from, to - from + 1)) (to < length(line) ? ".." : "")
    print blanks_for(printable(lead substr(line, from, byte - from))) "^"
}

# A blank for each character, and each tab as it is.
function blanks_for(text,    result, at) {
    for (at = 1; at <= length(text); at += character_length(text, at))
        result = result (substr(text, at, 1) == "\t" ? "\t" : " ")
    return result
}

# ---- the walk

# Takes one token.
function take(spelling, text, number, at) {
    if (met) look_behind(spelling, text, number)
    else if (starts[number] + at - 1 >= target || spelling == "END") meet(spelling, text, number, at)
    else {
        if (spelling == aim) note_earlier(number)
        if (spelling in role) step(spelling, text, role[spelling], number)
        else if (!depth) note_outer_name(spelling, text)
        before2 = before
        before2_text = before_text
        before = spelling
        before_text = text
        last_line = number
        last_end = at + length(text)
    }
}

# The same name or number stands before the target.
function note_earlier(number) {
    if (!index(earlier " ", " " before " ")) earlier = earlier " " before
    earlier_line = number
}

# A name outside of all brackets: that of a routine, or a directive, which takes the place of the routine's block.
function note_outer_name(spelling, text) {
    if (before == "procedure" || before == "function" || before == "program") block_name[blocks] = text
    else if ((part == "procedure" || part == "function") && before == ";" && kind_of(spelling) == "NAME") {
        part = "directive"
        blocks--
    }
}

# Takes a token that changes where the walk stands.
function step(spelling, text, what, number) {
    if (what == "operator") {
        if (!index(left[depth] " ", " " spelling " ")) left[depth] = left[depth] " " spelling
        return
    }
    if (spelling != "(" && spelling != "[") left[depth] = ""
    if (what == "comma") return
    if (what == "opening") open(spelling, text, number)
    else if (what == "closing") close_one(spelling)
    else if (what == "part") begin_part(spelling)
    else if (what == "semicolon") end_statement()
    else go_on(spelling)
}

function open(spelling, text, number) {
    # The variants of a record have no `end` of their own.
    if (spelling == "case" && (opener[depth] == "record" || opener[depth] == "(")) {
        since[depth] = spelling
        return
    }
    if (spelling == "begin" && !depth) part = "begin"
    depth++
    opener[depth] = since[depth] = spelling
    opener_text[depth] = text
    opened_on[depth] = number
    called[depth] = kind_of(before) == "NAME" ? before : "NONE"
    called_text[depth] = before_text
    left[depth] = ""
    waiting[depth] = waited[depth] = 0
}

function close_one(spelling,    closed) {
    if (!depth) return
    closed = opener[depth]
    depth--
    if (spelling == "until") since[depth] = spelling
    if (closed == "begin" && !depth) end_block()
}

function end_block() {
    closed_name = block_name[blocks]
    part = blocks > 0 ? "end" : "done"
    if (blocks > 0) blocks--
}

function begin_part(spelling) {
    since[depth] = spelling
    if (depth) return
    part = spelling
    if (spelling == "procedure" || spelling == "function") block[++blocks] = spelling
}

function end_statement() {
    since[depth] = ";"
    waited[depth] = waiting[depth]
    waiting[depth] = 0
    if (part == "directive" && !depth) part = "end"
}

function go_on(spelling) {
    if (spelling == "program") part = spelling
    if (spelling == "if") waiting[depth]++
    if (spelling == "else" && waiting[depth]) waiting[depth]--
    since[depth] = spelling == ":=" && before2 == "for" ? "for" : spelling
}

# Meets the token that is refused.
function meet(spelling, text, number, at) {
    met = 1
    token = spelling
    token_text = text
    same_line = number == last_line
    if (spelling == "END" && last_line) {
        number = last_line
        at = last_end
    }
    shown_line = number > 0 ? number : 1
    shown_byte = at
    shown_column = characters_in(lines[number], at - 1) + 1
    if (spelling == "END") done = 1
}

# Looks at a token behind it: the next one, those of the same expression, and later uses of the name.
function look_behind(spelling, text, number) {
    if (!behind++) {
        after = spelling
        after_text = text
    }
    if (!right_ends) look_right(spelling)
    if (spelling == aim && !index(later " ", " " previous " ")) {
        later = later " " previous
        if ((previous == "procedure" || previous == "function") && !later_line) later_line = number
    }
    previous = spelling
    if (right_ends && refusal != "Rule 1") done = 1
}

# Notes an operator on the right, or the token that ends the expression.
function look_right(spelling,    what) {
    what = role[spelling]
    if (spelling == "(" || spelling == "[") right_depth++
    else if (right_depth && (spelling == ")" || spelling == "]")) right_depth--
    else if (!right_depth && what != "") {
        if (!index(right " ", " " spelling " ")) right = right " " spelling
        if (what != "operator") right_ends = 1
    }
    if (spelling == "END" || right_depth && spelling == ";") right_ends = 1
}

# ---- what the conditions and the sentences speak of

function describe(    i, all) {
    if (after == "") after = "NONE"
    for (i = 1; i <= depth; i++) all = all " " opener[i]
    places["token"] = token
    places["before"] = before
    places["before2"] = before2
    places["after"] = after
    places["line"] = same_line ? "same" : "new"
    places["inside"] = opener[depth]
    places["around"] = depth ? all : "NONE"
    places["called"] = called[depth]
    places["since"] = since[depth]
    places["part"] = part == "" ? "NONE" : part
    places["block"] = block[blocks]
    places["left"] = left[depth] == "" ? "NONE" : left[depth]
    places["right"] = right == "" ? "NONE" : right
    places["beside"] = places["left"] " " places["right"]
    places["waiting"] = (before == ";" ? waited[depth] : waiting[depth]) ? "if" : "NONE"
    places["outer"] = depth && waiting[depth - 1] ? "if" : "NONE"
    places["earlier"] = earlier == "" ? "NONE" : earlier
    places["later"] = later == "" ? "NONE" : later
    words_for["token"] = quoted(token_text)
    words_for["before"] = quoted(before_text)
    words_for["before2"] = quoted(before2_text)
    words_for["after"] = quoted(after_text)
    words_for["code"] = token ~ /^BYTE/ ? substr(token, 6) : token
    words_for["open"] = opener_text[depth]
    words_for["open line"] = opened_on[depth]
    words_for["called"] = quoted(called_text[depth])
    words_for["since"] = since[depth]
    words_for["routine"] = quoted(block_name[blocks])
    words_for["closed"] = quoted(closed_name)
    words_for["earlier line"] = earlier_line
    words_for["later line"] = later_line
}
