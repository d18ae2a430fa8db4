# Cuts a file of rows into files of the folder `folder`: NUMBER.script, NUMBER.words,
# NUMBER.file.NAME, NUMBER.answer, NUMBER.note, NUMBER.status and NUMBER.place, the file and line at
# which the row begins. Prints how many rows there are. The head of checks/rows.sh has the form of
# a row. Run it with LC_ALL=C: it counts bytes.
function path(kind) { return folder "/" number "." kind }
function put(kind, text) { ORS = ""; print text > path(kind); close(path(kind)) }
function add(kind, text) { ORS = ""; print text >> path(kind); close(path(kind)) }
function times(count, text,   made) {
    made = ""
    while (count > 0) {
        if (count % 2 == 1) made = made text
        text = text text
        count = int(count / 2)
    }
    return made
}
function hex(digit) { return index("0123456789ABCDEF", toupper(digit)) - 1 }
# The text with its escapes resolved.
function said(text,   made, at, mark, inner) {
    made = ""
    while ((at = index(text, "\\")) > 0) {
        made = made substr(text, 1, at - 1)
        mark = substr(text, at + 1, 1)
        text = substr(text, at + 2)
        if (mark == "n") made = made "\n"
        else if (mark == "r") made = made "\r"
        else if (mark == "\\") made = made "\\"
        else if (mark == "x") {
            made = made sprintf("%c", 16 * hex(substr(text, 1, 1)) + hex(substr(text, 2, 1)))
            text = substr(text, 3)
        } else if (mark == "{") {
            inner = substr(text, 1, index(text, "}") - 1)
            text = substr(text, length(inner) + 2)
            at = index(inner, " ")
            made = made times(substr(inner, 1, at - 1) + 0, said(substr(inner, at + 1)))
        }
    }
    return made text
}
function begin() {
    if (inside) return
    inside = 1
    number++
    lines = 0
    put("place", FILENAME ":" FNR)
    put("status", "0")
    put("answer", "")
    put("note", "")
    put("words", "")
}
function finish() {
    if (inside) put("script", script)
    inside = 0
}
/^$/ { finish(); next }
/^#/ { next }
{ begin(); mark = $1; rest = substr($0, length(mark) + 2) }
mark == "<" { script = lines == 0 ? rest : script "\n" rest; lines++ }
mark == ">" { add("answer", rest "\n") }
mark == "!" { put("status", $2); put("note", substr(rest, length($2) + 2) "\n") }
mark == "words" { for (i = 2; i <= NF; i++) add("words", $i "\n") }
mark == "word" { add("words", rest "\n") }
mark == "file" { put("file." $2, said(substr(rest, length($2) + 2))) }
mark == "script" { script = said(rest) }
mark == "answer" { put("answer", said(rest)) }
mark == "?" {
    at = index(rest, " → ")
    script = "SELECT " substr(rest, 1, at - 1) ";"
    put("answer", "c1\n" substr(rest, at + length(" → ")) "\n(1 rows)\n")
    finish()
}
END { finish(); print number + 0 > "/dev/stdout" }
