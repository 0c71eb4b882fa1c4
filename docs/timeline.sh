#!/bin/sh
# A run as a timeline, one column for each core: sh docs/timeline.sh SCRIPT LISTING
# `|` stands while a transaction is in progress; what a call was answered stands where it was made. docs/timeline-svg.sh draws it.
usage="usage: sh docs/timeline${form:+-$form}.sh SCRIPT LISTING"
if [ $# -ne 2 ]; then
    echo "$usage" >&2
    exit 2
fi
for file in "$1" "$2"; do
    if [ -d "$file" ] || [ ! -r "$file" ]; then
        echo "cannot read $file; $usage" >&2
        exit 2
    fi
done
# a path with a slash, lest awk take one with an equals sign for an assignment
case $1 in */*) script=$1 ;; *) script=./$1 ;; esac
case $2 in */*) listing=$2 ;; *) listing=./$2 ;; esac
LC_ALL=C exec awk -v form="${form:-text}" -v title="$(basename "$1" .script | tr -c '[:alnum:]._\n-' '?')" \
    -f "$(dirname "$0")/picture.awk" -f "$(dirname "$0")/timeline.awk" part=listing "$listing" part=script "$script"
