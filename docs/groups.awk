# Reads a job sheet, works out its groups and levels and draws them, with docs/picture.awk.

# ---- the sheet; a task is known by its place

function no_sheet(line, why) { bad("line " line " of the sheet: " why) }

function is_number(text, most) { return text ~ /^(0|[1-9][0-9]*)$/ && length(text) <= 10 && text + 0 <= most }

# The task's cards: `-`, or different rising numbers with a comma between.
function take_cards(t, field,    list, n, i, last) {
    if (field == "-") return
    n = split(field, list, ",")
    last = -1
    for (i = 1; i <= n; i++) {
        if (!is_number(list[i], 63)) no_sheet(FNR, "its cards are no numbers 0 to 63 with a comma between, nor `-`")
        if (list[i] + 0 <= last) no_sheet(FNR, "its cards do not rise")
        last = list[i] + 0
        uses[t, last] = 1
    }
    if (!n) no_sheet(FNR, "its cards are missing")
    wants[t] = n
}

BEGIN {
    FS = "[ ]"
    called = "groups"
}

length($0) > 1024 { no_sheet(FNR, "over 1,024 bytes") }
FNR == 1 {
    for (i = 1; i <= NF; i++) place[$i] = i
    if (NF != 4 || !("task" in place && "core" in place && "deadline" in place && "cards" in place))
        no_sheet(1, quoted($0, 40) " has not the names task, core, deadline and cards, one space between")
    next
}
{ tasks = FNR - 1 }
tasks > 32 { no_sheet(FNR, "more than 32 tasks") }
NF != 4 { no_sheet(FNR, quoted($0, 40) " has not four fields, one space between") }
{
    number[tasks] = $place["task"]
    core[tasks] = $place["core"]
    deadline[tasks] = $place["deadline"]
    if (!is_number(number[tasks], 65535)) no_sheet(FNR, "its task is no number 0 to 65,535")
    if (number[tasks] in known) no_sheet(FNR, "task " number[tasks] " stands above already")
    if (!is_number(core[tasks], 15)) no_sheet(FNR, "its core is no number 0 to 15")
    if (!is_number(deadline[tasks], 4294967295)) no_sheet(FNR, "its deadline is no number 0 to 4,294,967,295")
    known[number[tasks]] = 1
    take_cards(tasks, $place["cards"])
}

END {
    if (failed) exit 1
    if (!tasks) bad("the sheet has no task")
    work_out_groups()
    work_out_levels()
    picture()
}

# ---- groups and levels

# Each card joins its users. A group is known by its first task.
function work_out_groups(    t, u, c, first, from, to) {
    for (t = 1; t <= tasks; t++) group[t] = t
    for (c = 0; c < 64; c++) {
        first = 0
        for (t = 1; t <= tasks; t++) {
            if (!((t, c) in uses)) continue
            if (!first) first = t
            to = group[first] < group[t] ? group[first] : group[t]
            from = group[first] + group[t] - to
            for (u = 1; u <= tasks; u++) if (group[u] == from) group[u] = to
        }
    }
}

# A task's level is the count of different deadlines at least its own; its transaction's is the highest in its group, 0 without cards.
function work_out_levels(    t, u, met) {
    for (t = 1; t <= tasks; t++) {
        split("", met)
        for (u = 1; u <= tasks; u++) {
            if (deadline[u] + 0 < deadline[t] + 0 || deadline[u] in met) continue
            met[deadline[u]] = 1
            level[t]++
        }
        if (wants[t] && level[t] > highest[group[t]]) highest[group[t]] = level[t]
    }
}

# ---- the picture: cards above their lines, then the tasks, then what the sheet and the levels say of them; rows of 24 units

function centred(x, y, text, bold) { return words(x - 3.6 * length(text), y, text, bold) }

function box(x, y, width, height, class) {
    return "<rect x=\"" x "\" y=\"" y "\" width=\"" width "\" height=\"" height "\" rx=\"6\"" (class ? " class=\"" class "\"" : "") "/>"
}

# The columns right of the tasks.
function put_headings(    i, n, names) {
    print centred(left + 34, y, "task", 1)
    n = split("core|deadline|task level|transaction level", names, "|")
    column[0] = left + 84
    for (i = 1; i <= n; i++) {
        print words(column[i - 1], y, names[i], 1)
        column[i] = column[i - 1] + 7.3 * (length(names[i]) + 3)
    }
}

function task_row(t) {
    return box(left, y - 9, 68, 18) centred(left + 34, y, number[t]) words(column[0], y, core[t]) words(column[1], y, deadline[t]) \
           words(column[2], y, level[t]) words(column[3], y, highest[group[t]] + 0)
}

# Where each card of a group has its column, the last one next to the tasks; how many cards there are.
function place_cards(g, column_of,    t, c, n) {
    split("", column_of)
    for (c = 63; c >= 0; c--) {
        for (t = g; t <= tasks && !(group[t] == g && (t, c) in uses); t++) continue
        if (t <= tasks) column_of[c] = left - 24 * ++n
    }
    return n
}

# A task's line to the first of its cards; its dots.
function line_of(t, column_of,    c) {
    for (c = 0; !((t, c) in uses); c++) continue
    return draw("M" column_of[c] " " y "H" left)
}
function dots_of(t, column_of,    c, dots) {
    for (c = 0; c < 64; c++) if ((t, c) in uses) dots = dots disc(column_of[c], y, 4, "solid")
    return dots
}

# A card above its line, which ends at the last task that uses it.
function put_card(c, x, top, low) {
    print draw("M" x " " top "V" low) "<rect x=\"" x - 10 "\" y=\"" top - 9 "\" width=\"20\" height=\"18\"/>" centred(x, top, c)
}

# The tasks of a group with their cards: lines first, dots and boxes over them.
function put_group(g,    t, c, n, rows, column_of, top, low, over) {
    n = place_cards(g, column_of)
    for (t = g; t <= tasks; t++) rows += group[t] == g
    print box(8, y - 16, width - 16, 24 * rows + 32, "bar")
    print words(left, y, "group " ++groups ": " plural(rows, "task") ", " plural(n, "card"), 1)
    top = y
    for (t = g; t <= tasks; t++) {
        if (group[t] != g) continue
        y += 24
        print line_of(t, column_of)
        for (c = 0; c < 64; c++) if ((t, c) in uses) low[c] = y
        over = over (t == g ? "" : "\n") dots_of(t, column_of) "\n" task_row(t)
    }
    for (c = 0; c < 64; c++) if (c in column_of) put_card(c, column_of[c], top, low[c])
    print over
    y += 52
}

# Tasks without cards: in no group with another.
function put_others(    t, rows) {
    for (t = 1; t <= tasks; t++) rows += !wants[t]
    if (!rows) return
    print box(8, y - 16, width - 16, 24 * rows + 32, "dash")
    print words(left, y, "without cards: in no group with another", 1)
    for (t = 1; t <= tasks; t++) {
        if (wants[t]) continue
        y += 24
        print task_row(t)
    }
    y += 52
}

# The cards that the largest group uses, and how high the picture is.
function measure(    t, c, n, most) {
    for (c = 0; c < 64; c++) for (t = 1; t <= tasks; t++) if ((t, c) in uses) { if (++n[group[t]] > most) most = n[group[t]]; break }
    for (t = 1; t <= tasks; t++) if (wants[t] && group[t] == t) height += 52
    for (t = 1; t <= tasks; t++) if (!wants[t]) { height += 52; break }
    height += 24 * tasks + 122
    left = 24 * most + 28
    width = int(left + 84 + 7.3 * 52)
}

function picture(    t) {
    measure()
    title = "Groups of " title
    open_picture(title, width, height)
    print words(10, 18, title)
    y = 46
    put_headings()
    y = 78
    for (t = 1; t <= tasks; t++) if (wants[t] && group[t] == t) put_group(t)
    put_others()
    print box(10, y - 9, 20, 18) words(38, y, "a card") disc(110, y, 4, "solid") words(122, y, "the task uses it")
    print words(10, y + 24, "Only tasks in one grey box can hold each other up.")
    print "</svg>"
}
