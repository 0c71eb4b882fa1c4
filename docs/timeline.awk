# What docs/timeline.sh and docs/timeline-svg.sh share: reads a listing, then its script, and writes the run in the form `text` or
# `svg`, with docs/picture.awk. A stretch begins at each setup and has the cores of its machine; before the first setup and after a
# refused one there is none.

function refusal(n) { return "REFUSED " n " (" (n in why ? why[n] : "?") ")" }

function asked(call, card, value) {
    if (call == "release") return "release job " card ", due " value
    if (call == "read") return "read card " card
    if (call == "write") return "write card " card
    if (call == "giveup") return "give up"
    return call
}

# What a call on a core did, in words.
function told(call, card, value, answer, got) {
    if (answer == "refused") return asked(call, card, value) (call == "write" ? ", value " value : "") ": " refusal(got)
    if (answer == "begun") return "begin: ticket " got
    if (answer == "value") return "read card " card ": " got
    if (answer == "written") return "write card " card ": " value
    if (answer == "waits") return "commit: WAITS behind core " got
    if (answer == "setback") return asked(call, card, value) ": SET BACK"
    if (answer == "committed") return "COMMITS (set back " got "x)"
    if (answer == "ended") return "GIVES UP"
    if (answer == "finished") return "finish: job " got
    return asked(call, card, value) ": " answer
}

# Whether a core may be told to wait behind another: one of the machine's that has a transaction in progress.
function behind(core, other) { return other ~ /^(0|[1-9][0-9]*)$/ && other + 0 < size[stretches] && other + 0 != core + 0 && busy[other + 0] }

# A new stretch, with so many cores: 0 is no machine.
function stretch(cores,    c) {
    stretches++
    size[stretches] = cores
    first[stretches] = events + 1
    for (c = 0; c < cores; c++) busy[c] = 0
}

# An event: where it happened, a core or "none" or "all", what kind of mark it is, in words; and who is in progress just before it.
function event(line, core, kind, text,    c) {
    events++
    at_line[events] = line
    at_core[events] = core
    mark[events] = kind
    said[events] = text
    for (c = 0; c < size[stretches]; c++) going[events, c] = busy[c]
    last[stretches] = events
}

# What is still in progress when a setup comes, accepted or not, ends with its machine.
function setup_ends(    c, some) {
    for (c = 0; c < size[stretches]; c++) some += busy[c]
    if (some) event(FNR, "all", "ends", "ENDS (setup)")
}

BEGIN {
    called = "timeline"
    split("1 1 to 16 cores, 1 to 64 cards|2 no machine|4 no such core|5 no such card|6 has 8 jobs|7 no job|8 in progress|" \
          "9 none in progress|10 no ticket left|11 not a call", pieces, "|")
    for (i in pieces) {
        n = pieces[i]
        sub(/ .*/, "", n)
        why[n] = substr(pieces[i], length(n) + 2)
    }
    answers["setup"] = " ready "
    answers["release"] = " running queued "
    answers["begin"] = " begun "
    answers["read"] = " value setback "
    answers["write"] = " written setback "
    answers["commit"] = " committed waits setback "
    answers["giveup"] = " ended "
    answers["finish"] = " finished "
    stretch(0)
}

part == "listing" && FNR == 1 {
    if ($0 != "line answer value") bad("the listing does not begin with 'line answer value'")
    next
}
part == "listing" {
    if (NF != 3 || $1 != FNR && !(FNR == 2 && $0 == "1 refused 11")) bad("line " FNR " of the listing is not one of a listing")
    answer[$1] = $2
    value[$1] = $3
    listed = $1
    next
}

{ lines = FNR }
done { next }
FNR == 1 && 1 in answer {
    event(1, "none", "refused", quoted($0, 40) " is no line of names: REFUSED 11, nothing after it is read")
    done = 1
    next
}
FNR == 1 {
    for (i = 1; i <= NF; i++) place[$i] = i
    if (NF != 4 || !("call" in place && "core" in place && "card" in place && "value" in place))
        bad("the script's first line is no line of names, and the listing does not say so")
    next
}
!(FNR in answer) {
    event(FNR, "none", "cut", "no answer in the listing from here on")
    done = 1
    next
}
answer[FNR] == "refused" && value[FNR] == 11 {
    event(FNR, "none", "refused", quoted($0, 40) ": " refusal(11))
    next
}
{
    call = $place["call"]
    core = $place["core"]
    if (!(call in answers) || NF != 4 || answer[FNR] != "refused" && !index(answers[call], " " answer[FNR] " ") ||
        answer[FNR] == "waits" && !behind(core, value[FNR]))
        bad("line " FNR " of the script cannot have been answered '" answer[FNR] " " value[FNR] "'")
}
call == "setup" {
    setup_ends()
    text = "setup: " plural(core, "core") ", " plural($place["card"], "card")
    if (answer[FNR] == "ready") stretch(core)
    else if (size[stretches]) stretch(0)
    if (answer[FNR] == "ready") event(FNR, "all", "setup", text)
    else event(FNR, "none", "refused", text ": " refusal(value[FNR]))
    next
}
{
    text = told(call, $place["card"], $place["value"], answer[FNR], value[FNR])
    kind = answer[FNR] == "running" || answer[FNR] == "queued" ? "release" : answer[FNR]
    if (size[stretches] && core + 0 < size[stretches]) event(FNR, core + 0, kind, text)
    else if (answer[FNR] == "refused") event(FNR, "none", kind, "core " core ": " text)
    else bad("line " FNR " of the script is for a core that the machine lacks, and is answered '" answer[FNR] "'")
    if (kind == "waits") waits_behind[events] = value[FNR] + 0
    if (kind == "begun") busy[core + 0] = 1
    if (kind == "committed" || kind == "ended") busy[core + 0] = 0
}

END {
    if (failed) exit 1
    if (!lines && 1 in answer) event(1, "none", "refused", "an empty script: REFUSED 11")
    else if (listed + 0 > lines + 0) bad("the listing has line " listed ", and the script has " plural(lines + 0, "line"))
    if (form == "svg") picture()
    else table()
}

# The heading of what is on no core.
function aside(s,    e, heading) {
    if (!size[s]) return "no machine"
    for (e = first[s]; e <= last[s]; e++) if (at_core[e] == "none") heading = "no core"
    return heading
}

# ---- as text

function put(text, n) { return sprintf("%-" n "s", text) }

function line_of(row) {
    sub(/ +$/, "", row)
    print row
}

# What stands in a core's column beside an event.
function cell(e, c,    going_on) {
    going_on = going[e, c] ? "|" : ""
    if (mark[e] == "ends") return going_on ? said[e] : ""
    if (at_core[e] != c) return going_on
    if (mark[e] == "committed" || mark[e] == "ended" || !going_on) return said[e]
    return going_on " " said[e]
}

function table(    s, e, c, n, row, wide, margin, some) {
    margin = length(lines) + 2 > 6 ? length(lines) + 2 : 6
    for (s = 1; s <= stretches; s++) {
        if (!last[s]) continue
        if (some++) print ""
        row = put("line", margin)
        for (c = 0; c < size[s]; c++) {
            wide[c] = 10
            for (e = first[s]; e <= last[s]; e++) {
                n = length(cell(e, c)) + 2
                if (n > wide[c]) wide[c] = n
            }
            row = row put("core " c, wide[c])
        }
        line_of(row aside(s))
        for (e = first[s]; e <= last[s]; e++) {
            row = put(at_line[e], margin)
            if (mark[e] == "setup") row = row said[e]
            else for (c = 0; c < size[s]; c++) row = row put(cell(e, c), wide[c])
            if (at_core[e] == "none") row = row said[e]
            line_of(row)
        }
    }
}

# ---- as a picture: rows of 24 units, letters about 7 units wide; below all the lines under headings, then bars, then marks and words

function bar(x, from, to) { return "<rect x=\"" x - 5 "\" y=\"" from "\" width=\"10\" height=\"" to - from "\" class=\"bar\"/>" }

function diamond(x, y) { return "M" x - 6 " " y "L" x " " y - 6 "L" x + 6 " " y "L" x " " y + 6 "Z" }

function across(x, y, half) { return "M" x - half " " y "H" x + half }

# A line from who waits to the core that is first in the way, with its head there.
function pointer(from, to, y,    back) {
    back = from < to ? -7 : 7
    return draw("M" from " " y "H" to + back, "dash") draw("M" to " " y "L" to + back " " y - 4 "V" y + 4 "Z", "solid")
}

# The shape of a kind of mark.
function shape(kind, x, y) {
    if (kind == "release") return draw(diamond(x, y))
    if (kind == "finished") return draw(diamond(x, y), "solid")
    if (kind == "begun") return draw(across(x, y, 9), "thick")
    if (kind == "value") return disc(x, y, 4)
    if (kind == "written") return disc(x, y, 4, "solid")
    if (kind == "waits")
        return draw("M" x - 8 " " y - 8 "H" x + 8 "V" y + 8 "H" x - 8 "Z") \
               draw("M" x - 3 " " y - 5 "V" y + 5 "M" x + 3 " " y - 5 "V" y + 5, "thick")
    if (kind == "first") return pointer(x + 9, x - 9, y)
    if (kind == "setback") return draw("M" x " " y - 9 "L" x + 9 " " y + 7 "H" x - 9 "Z")
    if (kind == "committed") return disc(x, y, 9, "solid") draw("M" x - 5 " " y "L" x - 1 " " y + 4 "L" x + 5 " " y - 4, "tick")
    if (kind == "ended") return draw("M" x - 7 " " y - 7 "L" x + 7 " " y + 7 "M" x - 7 " " y + 7 "L" x + 7 " " y - 7, "thick")
    if (kind == "ends") return draw(across(x, y - 3, 9) across(x, y + 3, 9), "thick")
    if (kind == "refused") return disc(x, y, 8) draw(across(x, y, 5), "thick")
    if (kind == "bar") return bar(x, y - 9, y + 9)
    return ""
}

# Units that a mark takes with its words; the picture is as wide as its widest row.
function room(text) { return int(44 + 7.3 * length(text)) }

function widen(to) { if (to > width) width = to }

# Whether an event is marked in a core's column, and whether the core's transaction ends by it.
function marked(e, c) { return at_core[e] == c || mark[e] == "ends" && going[e, c] }
function ending(e, c) { return going[e, c] && (mark[e] == "ends" || at_core[e] == c && mark[e] ~ /^(committed|ended)$/) }

function put_under(text) { under[++unders] = text }
function put_over(text) { over[++overs] = text }

function picture_of(s,    e, c, x, n, left, from) {
    left[0] = 60
    put_over(words(10, y, "line", 1))
    for (c = 0; c < size[s]; c++) {
        n = room("core " c)
        for (e = first[s]; e <= last[s]; e++) if (marked(e, c) && room(said[e]) > n) n = room(said[e])
        put_over(words(left[c], y, "core " c, 1))
        left[c + 1] = left[c] + n
    }
    widen(left[c])
    put_over(words(left[c], y, aside(s), 1))
    put_over("\n")
    rule[++rules] = y + 12
    for (e = first[s]; e <= last[s]; e++) {
        y += 24
        put_over(words(10, y, at_line[e]))
        kinds[mark[e]] = 1
        x = mark[e] == "setup" ? 50 : left[size[s]]
        if (mark[e] == "setup" || at_core[e] == "none") {
            put_over(shape(mark[e], x + 10, y) words(mark[e] == "refused" ? x + 30 : x + 10, y, said[e]))
            widen(x + room(said[e]))
        }
        for (c = 0; c < size[s]; c++) {
            x = left[c] + 10
            if (marked(e, c)) put_over(shape(mark[e], x, y) words(x + 20, y, said[e], mark[e] ~ /^(waits|setback|committed)$/))
            if (at_core[e] == c && mark[e] == "waits") {
                n = waits_behind[e]
                put_over(n < c ? pointer(x - 8, left[n] + 15, y) : pointer(x + 24 + int(7.3 * length(said[e])), left[n] + 5, y))
            }
            if (at_core[e] == c && mark[e] == "begun") from[c] = y
            if (ending(e, c)) put_under(bar(x, from[c], y) "\n")
            else if (e == last[s] && (going[e, c] || at_core[e] == c && mark[e] == "begun")) put_under(bar(x, from[c], y + 10) "\n")
        }
        put_over("\n")
    }
    y += 40
}

# The kinds of mark that occur, with their names.
function legend(    n, i, x, kind, name, entries) {
    n = split("bar in progress|begun begin|value read|written write|waits waits|first first in the way|setback set back|" \
              "committed commits|ended gives up|ends ends with its machine|release release|finished finish|refused refused", entries, "|")
    if ("begun" in kinds) kinds["bar"] = 1
    if ("waits" in kinds) kinds["first"] = 1
    rule[++rules] = y - 18
    x = 20
    for (i = 1; i <= n; i++) {
        kind = name = entries[i]
        sub(/ .*/, "", kind)
        sub(/^[a-z]* /, "", name)
        if (!(kind in kinds)) continue
        if (x + room(name) > width) {
            x = 20
            y += 24
        }
        put_over(shape(kind, x, y) words(x + 16, y, name) "\n")
        x += room(name)
    }
}

function picture(    s, i) {
    width = 480
    y = 48
    for (s = 1; s <= stretches; s++) if (last[s]) picture_of(s)
    legend()
    y += 20
    title = "Timeline of " title
    open_picture(title, width, y)
    print words(10, 18, title "; time runs downwards")
    for (i = 1; i <= rules; i++) print draw("M10 " rule[i] "H" width - 10)
    for (i = 1; i <= unders; i++) printf "%s", under[i]
    for (i = 1; i <= overs; i++) printf "%s", over[i]
    print "</svg>"
}
