# Sets the manual's text: paragraphs, lists, tables and blocks of code, for a terminal or, with
# form=man, for the man program.

BEGIN { width = 79 }

# A text without the marks of code, emphasis and links.
function plain(text) {
    while (match(text, /\[[^]]*\]\([^)]*\)/)) {
        link = substr(text, RSTART, RLENGTH)
        sub(/\]\(.*/, "", link)
        text = substr(text, 1, RSTART - 1) substr(link, 2) substr(text, RSTART + RLENGTH)
    }
    if (form == "man") return for_man(text)
    gsub(/\*\*/, "", text)
    gsub(/`/, "", text)
    return text
}

# The same for the man program: code in bold, emphasis in italics.
function for_man(text,   parts, count, at, strong, pieces, many, k, result) {
    gsub(/\\/, "\\e", text)
    gsub(/-/, "\\-", text)
    count = split(text, parts, "`")
    for (at = 1; at <= count; at++) {
        if (at % 2 == 0) { result = result "\\fB" parts[at] "\\fR"; continue }
        many = split(parts[at], pieces, /\*\*/)
        for (k = 1; k <= many; k++) {
            if (k > 1) { strong = !strong; result = result (strong ? "\\fI" : "\\fR") }
            result = result pieces[k]
        }
    }
    return protected(result)
}

# A line of the man program that begins with no request.
function protected(text) { return text ~ /^[.']/ ? "\\&" text : text }

# A line of code for the man program.
function code_line(text) {
    gsub(/\\/, "\\e", text)
    gsub(/-/, "\\-", text)
    return protected(text)
}

# Prints a text by words, from its second line on behind `rest`.
function wrap(text, first, rest,   words, count, at, line) {
    count = split(text, words, " ")
    line = first
    empty = 1
    for (at = 1; at <= count; at++) {
        if (!empty && length(line) + 1 + length(words[at]) > width) { print line; line = rest; empty = 1 }
        line = line (empty ? "" : " ") words[at]
        empty = 0
    }
    print line
}

function spaces(n) { return sprintf("%" n "s", "") }

function end_paragraph() {
    if (text == "") return
    gap()
    if (form == "man") { print ".PP"; print plain(text) } else wrap(plain(text), "", "")
    text = ""
    last = "paragraph"
}

# An empty line between two blocks of a plain text.
function gap() { if (form != "man" && last != "") print ""; last = "block" }

# Prints the rows of a table: two columns beside one another, others as a list.
function end_table(   row, column, first, size, cells, count) {
    if (!rows) return
    gap()
    for (row = 2; row <= rows; row++) {
        first = plain(cell[row, 1])
        if (length(first) > size && length(first) <= 24) size = length(first)
    }
    for (row = 2; row <= rows; row++) {
        first = plain(cell[row, 1])
        if (form == "man") {
            print ".TP"
            print first
            for (column = 2; column <= columns; column++) {
                if (column > 2) print ".br"
                print (columns > 2 ? plain(cell[1, column]) ": " : "") plain(cell[row, column])
            }
        } else if (columns == 2 && length(first) <= size) {
            wrap(plain(cell[row, 2]), "  " first spaces(size - length(first)) "  ", spaces(size + 4))
        } else {
            print "  " first
            for (column = 2; column <= columns; column++)
                if (columns == 2) wrap(plain(cell[row, column]), spaces(size + 4), spaces(size + 4))
                else wrap(plain(cell[1, column]) ": " plain(cell[row, column]), "      ", "        ")
        }
    }
    rows = 0
}

function end_block() { end_paragraph(); end_table() }

/^    / {
    end_block()
    if (!code) { gap(); if (form == "man") { print ".PP"; print ".RS 4"; print ".nf" } }
    code = 1
    print form == "man" ? code_line(substr($0, 5)) : $0
    next
}
code { code = 0; if (form == "man") { print ".fi"; print ".RE" } }
/^$/ { end_block(); listed = 0; next }
/^#/ {
    end_block()
    title = $0
    sub(/^#+ /, "", title)
    gap()
    if (form == "man") print ".SS \"" plain(title) "\""
    else print plain(title)
    next
}
/^\|[-|]*\|$/ { next }
/^\|/ {
    end_paragraph()
    line = $0
    gsub(/\\[|]/, "\001", line)
    columns = split(substr(line, 3, length(line) - 4), parts, / [|] /)
    rows++
    for (at = 1; at <= columns; at++) { gsub(/\001/, "|", parts[at]); cell[rows, at] = parts[at] }
    next
}
/^(- |[0-9]+\. )/ {
    end_block()
    mark = $1
    body = substr($0, length(mark) + 2)
    if (mark == "-") mark = "\001"
    if (form == "man") {
        print ".IP " (mark == "\001" ? "\\(bu 2" : "\"" mark "\" 4")
        print plain(body)
    } else {
        if (!listed) gap()
        if (mark == "\001") mark = "*"
        wrap(plain(body), "  " mark " ", spaces(length(mark) + 3))
    }
    listed = 1
    next
}
{ text = text (text == "" ? "" : " ") $0 }
END { end_block(); if (code && form == "man") { print ".fi"; print ".RE" } }
