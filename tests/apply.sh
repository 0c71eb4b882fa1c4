# Read by applies.sh, edits.sh and knots.sh.

# apply EDIT DIR: makes the edit's replacements in the files under DIR; says what is wrong with it, if anything is
apply() {
  local line file='' old='' new pairs=0
  while IFS= read -r line || [ -n "$line" ]; do
    case $line in
    'file: '*) file=${line#file: } ;;
    'old: '*) old=${line#old: } ;;
    'new:'*)
      new=${line#new:}
      new=${new# }
      case /$file in */../* | //*) echo "'$file' leads out of the crates"; return 1 ;; esac
      [ -f "$2/$file" ] || { echo "there is no file $file"; return 1; }
      OLD=$old NEW=$new awk '
        { text = text $0 "\n" }
        END {
          old = ENVIRON["OLD"]
          at = old == "" ? 0 : index(text, old)
          if (!at) exit 3
          rest = substr(text, at + length(old))
          if (index(rest, old)) exit 4
          printf "%s%s%s", substr(text, 1, at - 1), ENVIRON["NEW"], rest
        }' "$2/$file" >"$2/edited" || { echo "an 'old:' text is not in $file, or more than once: $old"; return 1; }
      mv "$2/edited" "$2/$file"
      old=''
      pairs=$((pairs + 1))
      ;;
    esac
  done <"$1"
  [ "$pairs" -gt 0 ] || { echo "it changes nothing"; return 1; }
}
