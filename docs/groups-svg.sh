#!/bin/sh
# The groups of a job sheet as a picture (SVG): sh docs/groups-svg.sh SHEET > PICTURE
# A box is a group. In it a line leads from each task to the cards that it uses, with a dot where it uses one; lines that cross without a dot
# have nothing to do with each other. Beside each task stand its core, its deadline and its two levels. There is no colour.
usage="usage: sh docs/groups-svg.sh SHEET"
if [ $# -ne 1 ]; then
    echo "$usage" >&2
    exit 2
fi
if [ -d "$1" ] || [ ! -r "$1" ]; then
    echo "cannot read $1; $usage" >&2
    exit 2
fi
# a path with a slash, lest awk take one with an equals sign for an assignment
case $1 in */*) sheet=$1 ;; *) sheet=./$1 ;; esac
LC_ALL=C exec awk -v title="$(basename "$1" .sheet | tr -c '[:alnum:]._\n-' '?')" \
    -f "$(dirname "$0")/picture.awk" -f "$(dirname "$0")/groups.awk" "$sheet"
