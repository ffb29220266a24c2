# Turns a document of docs/ without its title into a part of a page, with an anchor at each heading. It links only within itself.
function inline(text,    out, at, word, to) {
    gsub(/&/, "\\&amp;", text)
    gsub(/</, "\\&lt;", text)
    gsub(/&lt;a id="[a-z_0-9-]+">&lt;\/a>/, "<&>", text)
    gsub(/<&lt;a id/, "<a id", text)
    gsub(/">&lt;\/a>>/, "\"></a>", text)
    out = ""
    while (match(text, /`[^`]*`|\*\*[^*]*\*\*|\*[^* ][^*]*\*|\[[^]]*\]\([^)]*\)/)) {
        out = out substr(text, 1, RSTART - 1)
        word = substr(text, RSTART, RLENGTH)
        text = substr(text, RSTART + RLENGTH)
        if (word ~ /^`/) out = out "<code>" substr(word, 2, length(word) - 2) "</code>"
        else if (word ~ /^\*[^*]/) out = out "<em>" inline(substr(word, 2, length(word) - 2)) "</em>"
        else if (word ~ /^\*/) out = out "<strong>" inline(substr(word, 3, length(word) - 4)) "</strong>"
        else {
            at = index(word, "](")
            to = substr(word, at + 2, length(word) - at - 2)
            out = out "<a href=\"" to "\">" inline(substr(word, 2, at - 2)) "</a>"
        }
    }
    return out text
}
function slug(text) {
    text = tolower(text)
    gsub(/[^a-z0-9_ -]/, "", text)
    gsub(/ /, "-", text)
    return text
}
function row(tag,    all, n, i) {
    sub(/^\| */, "")
    sub(/ *\|$/, "")
    gsub(/\\\|/, "\001")
    n = split($0, all, / *\| */)
    printf "<tr>"
    for (i = 1; i <= n; i++) {
        gsub(/\001/, "|", all[i])
        printf "<%s>%s", tag, inline(all[i])
    }
    print ""
}
function block(now) {
    if (now == kind) return
    if (kind != "") print (kind == "table" ? "</table></div>" : "</" kind ">")
    if (now != "") print (now == "table" ? "<div><table>" : "<" now ">")
    kind = now
}
NR == 1 { next }
/^```/ {
    block("")
    fenced = !fenced
    print (fenced ? "<pre>" : "</pre>")
    next
}
fenced {
    gsub(/&/, "\\&amp;")
    gsub(/</, "\\&lt;")
    print
    next
}
/^#+ / {
    block("")
    level = index($0, " ") - 1
    text = substr($0, level + 2)
    print "<h" level " id=\"" slug(text) "\">" inline(text) "</h" level ">"
    next
}
/^\|[-|: ]+\|$/ { next }
/^\|/ {
    tag = kind == "table" ? "td" : "th"
    block("table")
    row(tag)
    next
}
/^[0-9]+\. / {
    block("ol")
    sub(/^[0-9]+\. /, "")
    print "<li>" inline($0)
    next
}
/^- / {
    block("ul")
    print "<li>" inline(substr($0, 3))
    next
}
/^$/ {
    block("")
    next
}
{
    block("")
    print "<p>" inline($0)
}
END { block("") }
