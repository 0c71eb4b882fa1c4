# Read by the tests of pictures.

# well_formed FILE: it has one root, and each element that is opened is closed in its order; no stray < or &
well_formed() {
  awk '
    { all = all $0 "\n" }
    END {
      while (match(all, /<[^<>]*>/)) {
        before = substr(all, 1, RSTART - 1)
        tag = substr(all, RSTART + 1, RLENGTH - 2)
        all = substr(all, RSTART + RLENGTH)
        gsub(/&(amp|lt|gt);/, "", before)
        if (before ~ /[<>&]/ || depth == 0 && before ~ /[^ \n]/) bad = 1
        if (tag ~ /^\//) { if (depth == 0 || open[depth--] != substr(tag, 2)) bad = 1; if (depth == 0) roots++; continue }
        name = tag
        sub(/[ \/].*/, "", name)
        rest = substr(tag, length(name) + 1)
        closed = sub(/\/$/, "", rest)
        gsub(/ [A-Za-z:]+="[^"<&]*"/, "", rest)
        if (rest ~ /[^ ]/ || name !~ /^[a-z]+$/) bad = 1
        if (!closed) open[++depth] = name
        else if (depth == 0) roots++
      }
      exit bad || depth || roots != 1 || all ~ /[^ \n]/
    }' "$1" || return 1
  if command -v python3 > /dev/null; then
    python3 -c 'import sys, xml.dom.minidom; xml.dom.minidom.parse(sys.argv[1])' "$1" || return 1
  fi
}

# by_itself FILE: a picture that is well formed, has a title and a size, and nothing from elsewhere
by_itself() {
  well_formed "$1" && grep -q '<title>' "$1" && grep -q 'viewBox="0 0 ' "$1" && ! grep -qE 'href|url\(|@import|@font-face' "$1"
}
