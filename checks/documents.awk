# Writes each script of the documents and its output into `folder`, as NUMBER.sql or NUMBER.sh,
# NUMBER.folder, NUMBER.words and NUMBER.wanted. The head of checks/documents.sh has the form.
function put(line, name) { print line >> (folder "/" name); close(folder "/" name) }
function field(text) { return text ~ /[",]/ ? "\"" doubled(text) "\"" : text }
function doubled(text) { gsub(/"/, "\"\"", text); return text }
# Writes the expression of a block `try` that is read to its end.
function settle() {
    if (line == "") return
    number++
    split(line, part, / +→ +/)
    put("shop", number ".folder")
    put("SELECT " part[1] ";", number ".sql")
    wanted = part[2] ~ /^statement / ? part[2] : "c1\n" field(part[2]) "\n(1 rows)"
    put(wanted, number ".wanted")
    line = ""
}
/^```/ {
    settle()
    inside = !inside
    split(inside ? substr($0, 4) : "", word, " ")
    kind = word[1]
    if (kind == "sh" && word[2] == "") kind = ""
    if (kind == "sql" || kind == "sh") {
        number++
        put(word[2] == "" ? "shop" : word[2], number ".folder")
        for (i = 3; i in word; i++) put(word[i], number ".words")
    }
    next
}
kind == "sql" || kind == "sh" { put($0, number "." kind) }
kind == "answer" { put($0, number ".wanted") }
kind == "try" && /^ / { sub(/^ +/, ""); line = line " " $0; next }
kind == "try" { settle(); line = $0 }
