# Finds lines of a text, and what is likely to be wrong with one, by what a fitter sees: the proved program alone says whether something is wrong, and where.
#   mode=count                       how many lines there are, and how many of each kind
#   mode=number kind=K place=N       the line number of the line N of a kind, from 0
#   mode=object id=I                 the line number of the object's line; of its last insert, where there is one and inserts=1
#   mode=only kinds=K,K..            the lines of these kinds
#   mode=too_many line=N             why line N is one too many
#   mode=cause line=N ended=0 or 1   why line N is not in its form, where a test finds it; ended: whether the last line has its line end

BEGIN {
    kinds_in_order = split("type floor rel rule ent link event", order, " ")
    for (k = 1; k <= kinds_in_order; k++) rank[order[k]] = k
    split("a type,a floor,a relationship,a rule,an object,a link,an event", called, ",")
    split("insert delete set join part special general", names, " ")
    for (k in names) event_name[names[k]]
    split(kinds, wanted, ",")
    for (k in wanted) kept[wanted[k]]
}

# The name that a line begins with, and its kind.
function name_of(s) { return match(s, /^\([a-z]+/) ? substr(s, 2, RLENGTH - 1) : "" }
function kind_of(s,    name) {
    name = name_of(s)
    return name in event_name ? "event" : name in rank ? name : ""
}

{
    kind_here = kind_of($0)
    if (mode == "only") { if (kind_here in kept) print; next }
    if (mode == "number" && kind_here == kind && count[kind] + 0 == place) { print NR; exit }
    if (mode == "object" && $0 ~ "^\\(ent " id " ") found = NR
    if (mode == "object" && inserts && $0 ~ "^\\(insert " id " ") found = NR
    count[kind_here]++
    if (kind_here == "type") cells_of[count["type"] - 1] = last_number($0)
    if (NR == line) { if (mode == "too_many") print too_many($0); if (mode == "cause") print cause($0); exit }
    if (rank[kind_here] > highest) { highest = rank[kind_here]; highest_kind = kind_here }
}

END {
    if (mode == "object" && found) print found
    if (mode == "count") print said(NR, "line") ": " said(count["rule"], "rule") ", " said(count["ent"], "object") ", " said(count["link"], "link") ", " said(count["event"], "event")
}

function said(n, what) { return n + 0 " " what (n == 1 ? "" : "s") }
function last_number(s) { sub(/\).*/, "", s); sub(/.* /, "", s); return s }
function occurrences(s, c) { return gsub(c, c, s) }
function field(s, n,    parts) { split(s, parts, /[ ()]+/); return parts[n + 1] }

function too_many(s,    forms) {
    forms = occurrences(s, "\\(") - 1
    if (kind_here == "rule" && forms > 64) return "its body has " forms " forms, and the most are 64"
    return "it is " called[rank[kind_here]] " more than the " count[kind_here] - 1 " that there is room for"
}

# The first of these that is seen in a line that is not in its form. `rest` is what stands behind the last bracket.
function cause(s,    opened, closed, rest) {
    opened = occurrences(s, "\\("); closed = occurrences(s, "\\)")
    rest = s; sub(/.*\)/, "", rest)
    if (s ~ /^\357\273\277/) return "the text begins with a byte order mark: save it as plain text without one"
    if (s ~ /\r$/) return "a Windows line end: save the text with plain line ends"
    if (s ~ /^[ \t]*$/) return ended_or("a blank line")
    if (s ~ /\t/) return "a tab: there is one space between items"
    if (s ~ /[^ -~]/) return "a character that is no plain letter, digit or sign, as a long dash or a special space"
    if (s ~ /\)\(/) return "two lines in one: a line end is missing, perhaps at the end of a file"
    if (s ~ /  /) return "two spaces in a row"
    if (s ~ /^ / || s ~ / $/ || s ~ /\( / || s ~ / \)/) return "a space at the line's beginning or end, or beside the inside of a bracket"
    if (s ~ /[A-Z]/) return "an upper case letter: names are written small"
    if (s ~ /[0-9][.,][0-9]/) return "a decimal point: numbers are whole"
    if (s ~ /\+/) return "a plus sign: numbers have none"
    if (opened > closed) return ended_or(opened - closed == 1 ? "a closing bracket is missing" : opened - closed " closing brackets are missing")
    if (opened < closed) return closed - opened == 1 ? "a closing bracket too many" : closed - opened " closing brackets too many"
    if (rest != "" && opened) return "something stands behind the line's last bracket"
    if (kind_here == "") return "no line begins with such a name: " names_known()
    if (rank[kind_here] < highest) return called[rank[kind_here]] " cannot come after " called[rank[highest_kind]] ": the order is types, floors, relationships, rules, objects, links, events"
    if (s ~ /[ -]0[0-9]/ || s ~ /-0/) return "a number with a 0 in front"
    return numbered(s)
}

function ended_or(what) { return ended || !last_line() ? what : "the last line has no line end" }
function names_known() { return "type, floor, rel, rule, ent, link, insert, delete, set, join, part, special and general do" }
function last_line() { return line == lines }

# Numbers by position, and the cells of an object.
function numbered(s,    n) {
    n = count[kind_here] - 1
    if (kind_here ~ /^(type|rel|rule)$/ && field(s, 2) != n) return "it is " called[rank[kind_here]] " with the number " field(s, 2) ", and by its place its number is " n
    if (kind_here == "ent" && !(field(s, 3) in cells_of)) return "there is no type " field(s, 3)
    if (kind_here == "ent" && split(s, parts, " ") - 3 != cells_of[field(s, 3)])
        return "an object of type " field(s, 3) " has " said(cells_of[field(s, 3)], "cell") ", and here are " split(s, parts, " ") - 3
    if (!ended && last_line()) return "the last line has no line end"
    return ""
}
