# What docs/timeline.awk and docs/groups.awk share: words, and the pieces of a picture (SVG) in black, white and one grey. `called` is what a
# script says before its complaint.

function bad(text) {
    print called ": " text | "cat 1>&2"
    failed = 1
    exit 1
}

function plural(n, word) { return n " " word (n == 1 ? "" : "s") }

# The line as it stands, at most so many bytes of it, and ? for a byte that cannot be printed.
function quoted(line, most) {
    if (length(line) > most) line = substr(line, 1, most) ".."
    gsub(/[^ -~]/, "?", line)
    return "\"" line "\""
}

function escaped(text) {
    gsub(/[^ -~]/, "?", text)
    gsub(/&/, "\\&amp;", text)
    gsub(/</, "\\&lt;", text)
    gsub(/>/, "\\&gt;", text)
    return text
}

function words(x, y, text, bold) {
    if (text == "") return ""
    return "<text x=\"" x "\" y=\"" y + 4 "\"" (bold ? " class=\"b\"" : "") ">" escaped(text) "</text>"
}

function draw(d, class) { return "<path d=\"" d "\"" (class ? " class=\"" class "\"" : "") "/>" }

function disc(x, y, r, class) { return "<circle cx=\"" x "\" cy=\"" y "\" r=\"" r "\"" (class ? " class=\"" class "\"" : "") "/>" }

# The beginning of a picture: its size, its title and how things look; what follows stands on a white page.
function open_picture(title, width, height) {
    title = escaped(title)
    print "<svg xmlns=\"http://www.w3.org/2000/svg\" viewBox=\"0 0 " width " " height "\" width=\"" width "\" height=\"" height "\" role=\"img\">"
    print "<title>" title "</title>"
    print "<style>"
    print "text { font-family: monospace; font-size: 12px; fill: black; stroke: none } .b { font-weight: bold }"
    print "path, circle, rect { fill: white; stroke: black; stroke-width: 1.5 } .solid { fill: black } .bar { fill: #ddd }"
    print ".thick { fill: none; stroke-width: 3 } .tick { fill: none; stroke: white; stroke-width: 2 } .page { stroke: none }"
    print ".dash { fill: none; stroke-dasharray: 4 3 }"
    print "</style>"
    print "<rect width=\"" width "\" height=\"" height "\" class=\"page\"/>"
}
