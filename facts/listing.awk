# What each of the 256 bytes lists as, beside what the Guide says that it means, as rows of a page's table; bytes alike in both stand in one row.
# The variable `table` names it: quoted, or plain (outside quotes, where the ROM's words count too).
# Reads guide-codes.tsv, rom-words.tsv, and the listings that `judge_tables` prints: for each byte the listing of a line 0 that holds it alone, then of
# one that holds a quote and the byte. A 0D lists as a line feed, so that its row has a second line, which is empty.
function value(h) { return (index(hex, substr(h, 1, 1)) - 1) * 16 + index(hex, substr(h, 2, 1)) - 1 }
# 60 to 7F and A1 to BF are graphics; C0 to DF are as 60 to 7F, E0 to FE as A0 to BE, FF as 7E
function meaning(v) {
    if (v == 126 || v == 222 || v == 255) return "pi"
    if (v == 224) return means[160]
    if (v >= 96 && v <= 127 || v >= 161) return "a graphic"
    return v in means ? means[v] : "nothing"
}
# a listed text as a page says it
function told(v, text) {
    if (text == "") return v == 13 ? "a line feed" : "nothing, the line ends"
    if (text == sprintf("{$%02X}", v)) return "its code, `{$XX}`"
    if (text == sprintf("{%02X}", v) && v >= 128) return "its code, `{XX}`"
    if (text == sprintf("%c", v)) return "itself"
    if (v > 192 && v <= 218 && text == sprintf("%c", v - 128)) return "the letters `A` to `Z`"
    return "`" text "`"
}
function quoted_row(v,    said, says) {
    said = told(v, quoted[v]); says = meaning(v)
    if (said == "itself" && (says == sprintf("%c", v) || v == 32 && says == "SPACE")) says = "the same"
    else if (said == "itself") said = "`" quoted[v] "`"
    else if (said ~ /^its code/ && says != "nothing" && says != "a graphic" && says != "pi") says = "a colour, a key or a switch"
    add(v, said, says)
}
function plain_row(v,    says) {
    if (v >= 128 && v in word && plain[v] == word[v] && word[v] == "^") add(v, "its V2 word, `^`", "arrow up")
    else if (v >= 128 && v in word && plain[v] == word[v]) add(v, "its V2 word", "the same")
    else if (v >= 128 && v in word) add(v, "`" plain[v] "`", word[v])
    else if (v >= 128) add(v, told(v, plain[v]), v == 255 ? "pi" : "no word")
    else if (plain[v] == quoted[v]) add(v, "as in quotes", "as in quotes")
    else add(v, told(v, plain[v]), meaning(v))
}
function add(v, said, says,    row) {
    row = said " | " says
    if (!(row in codes)) order[++count] = row
    else if (last[row] == v - 1) { ends[row] = v; last[row] = v; return }
    close_range(row); codes[row] = codes[row] (codes[row] == "" ? "" : ", ") sprintf("%02X", v); last[row] = v; ends[row] = v; first[row] = v
}
function close_range(row) { if (row in ends && ends[row] > first[row]) codes[row] = codes[row] sprintf(" to %02X", ends[row]) }
BEGIN { FS = "\t"; hex = "0123456789ABCDEF" }
/^# / { next }
FILENAME ~ /guide-codes/ { means[value($1)] = $2; next }
FILENAME ~ /rom-words/ { word[value($1)] = $2; next }
$2 !~ /^0 / { next }
{
    rows++; v = value($1); text = substr($0, 6)
    if (v in plain) { if (text !~ /^"/) print "no quote is listed before " $1; quoted[v] = substr(text, 2) } else plain[v] = text
}
END {
    if (rows != 512) print "there are " rows " listings, not 512"
    for (v = 0; v < 256; v++) if (table == "quoted") quoted_row(v); else plain_row(v)
    for (i = 1; i <= count; i++) { close_range(order[i]); print "| " codes[order[i]] " | " order[i] " |" }
}
