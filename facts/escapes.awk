# What differs between the escapes' codes and those that their keys send, as rows of a page's table. The variable `table` names it:
# names: the 112 names, a row where the code is not the one that its keys send, or not the one that the Guide has for what the name says
# keys: a key and one byte, a row where the code is not the one that the keys send
# cursor: the names of SHIFT with a cursor key, a row each
# Reads keyboard.tsv, guide-codes.tsv, escape-keys.tsv, the definitions' names (Escapes.antt), and the escapes that `judge_tables` prints.
function value(h) { return (index(hex, substr(h, 1, 1)) - 1) * 16 + index(hex, substr(h, 2, 1)) - 1 }
function is_graphic(h,    v) { v = value(h); return v >= 96 && v <= 127 || v >= 161 && v <= 223 }
function is_pi(h) { return h == "7E" || h == "DE" || h == "FF" }
function sent(keys) { return keys in sends && sends[keys] != "FF" ? sends[keys] : "none" }
# the Guide's code for what a name says; of several for one thing, ours if it is among them
function guide(says, ours, keyed) {
    if (says == "graphic") return is_graphic(keyed) ? keyed : "no graphic"
    if (says == "pi") return is_pi(ours) ? ours : "FF"
    return says in code ? code[says] : "none"
}
function name_row(name, ours,    keyed, listed) {
    keyed = sent(keys[name]); listed = guide(says[name], ours, keyed)
    if (keyed != "none" && listed != "none" && keyed != listed && says[name] != "pi")
        print "the keys of " name " send " keyed ", and the Guide has " listed
    if (table == "names" && (keyed != ours || listed != ours))
        print "| `{" name "}` | " ours " | " keys[name] " | " keyed " | " listed " |"
    if (table == "cursor" && name ~ /^sh (cursor )?(up|down|left|right)$/) {
        turned = name; sub(/^sh (cursor )?/, "", turned)
        print "| `{" name "}` | " ours " | " keyed " | " code["CRSR " opposite[turned]] " |"
    }
}
function key_row(name, ours,    space, key, byte, keyed) {
    space = index(name, " "); key = held[substr(name, 1, space - 1)]; byte = substr(name, space + 1)
    keyed = sent(key " " (byte in sign ? sign[byte] : toupper(byte)))
    if (keyed != ours) print "| `{" name "}` | " ours " | " key " " (byte in sign ? sign[byte] : toupper(byte)) " | " keyed " |"
}
BEGIN {
    FS = "\t"; hex = "0123456789ABCDEF"
    held["ctrl"] = "CTRL"; held["cm"] = "C="; held["sh"] = "SHIFT"
    sign["\\"] = "pound"; sign["^"] = "arrow up"; sign["_"] = "arrow left"
    opposite["up"] = "down"; opposite["down"] = "up"; opposite["left"] = "right"; opposite["right"] = "left"
}
/^# / { next }
FILENAME ~ /keyboard/ { sends[$1] = $2; sends["SHIFT " $1] = $3; sends["C= " $1] = $4; sends["CTRL " $1] = $5; next }
FILENAME ~ /guide-codes/ { code[$2] = $1; next }
FILENAME ~ /escape-keys/ {
    keys[$1] = $2; says[$1] = $3
    if ($2 != "none" && !($2 in sends)) print "escape-keys.tsv: " $2 " is no key of keyboard.tsv"
    next
}
FILENAME ~ /Escapes/ {
    if (match($0, /"[^"]*" is 0x[0-9A-F][0-9A-F]/)) { split(substr($0, RSTART + 1, RLENGTH - 1), part, "\" is 0x"); defined[++names] = part[1] }
    next
}
$2 !~ /^[0-9A-F][0-9A-F]$/ { next }
++rows <= names {
    if ($1 != defined[rows]) print "crates/judge_tables/stdin names " $1 " where the definitions have " defined[rows]
    if (!($1 in keys)) print "escape-keys.tsv has no keys for " $1
    if (table != "keys") name_row($1, $2)
    next
}
table == "keys" && $1 ~ /^(ctrl|cm|sh) .$/ { key_row($1, $2); compared++ }
END {
    if (names != 112) print "there are " names " names, not 112"
    if (table == "keys" && compared != 101) print compared " keys with one byte were compared, not 101"
}
