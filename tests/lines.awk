# Writes, of rows of the second reading, the lines of speedate_lines that it can answer into the file `lines`, and its answers
# into the file `answers`: LC_ALL=C awk -v lines=FILE -v answers=FILE -f lines.awk.
BEGIN {
    FS = "\t"
    for (i = 0; i < 256; i++)
        byte[sprintf("%02x", i)] = sprintf("%c", i)
}
function unescaped(text, done, at) {
    for (done = ""; at = index(text, "\\"); text = substr(text, at + 4))
        done = done substr(text, 1, at - 1) byte[substr(text, at + 2, 2)]
    return done text
}
# A line has the default configuration, or that of strict durations, and no line feed in its text.
{
    form = $1 ~ /^date/ ? "or_timestamp" : "text"
    kind = $3 == "0 0 0 0 0" ? $1 : $1 " " $3 == "duration 0 0 0 0 1" ? "duration-strict" : ""
    if (kind == "" || index(" " $2 " ", " " form " ") == 0 || index($4, "\\x0a"))
        next
    print kind " " unescaped($4) >lines
    print ($5 == "ok" ? "ok " $7 : "err " $5) >answers
}
