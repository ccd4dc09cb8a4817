#!/usr/bin/env bash
# Sees that every file that docs/READING.md names is there, and that each name after a file stands in it; and that docs/REFUSALS.md has a row
# for each refusal of include/sumopine.h, in that order, and no other; and that the refusals of rules/specs/Numbers.antt and rules/src/lib.rt have
# the names and numbers of include/sumopine.h (`field_not_whole`, `FieldNotWhole` and `SUMOPINE_FIELD_NOT_WHOLE` are one name); and that the sizes
# of include/sumopine.h, from which it makes its largest chart, are the code's and the definitions'.
set -euo pipefail
cd "$(dirname "$0")/.."
bad=0
file=
while IFS= read -r word; do
    case $word in
    '|')
        file=
        ;;
    */*)
        file=crates/$word
        [ -e "$file" ] || file=$word
        if [ ! -e "$file" ]; then
            echo "READING.md names $word, which is not there"
            bad=1
            file=
        fi
        ;;
    *)
        if [ -n "$file" ] && ! grep -qwF -- "$word" "$file"; then
            echo "READING.md: $file has no $word"
            bad=1
        fi
        ;;
    esac
done < <(grep '^|' docs/READING.md | sed 's/|/\n|\n/g' | awk '/^\|$/ { print; next } { n = split($0, p, "`"); for (i = 2; i <= n; i += 2) print p[i] }')
# each refusal as `NAME = number`
header=$(sed -n 's/^ *SUMOPINE_\([A-Z_]* = [^,]*\),\{0,1\}$/\1/p' include/sumopine.h)
specs=$(sed -n 's/^\([a-z_]* = .*\)$/\1/p' crates/rules/specs/Numbers.antt | tr '[:lower:]' '[:upper:]')
code=$(sed -n 's/^    \([A-Za-z]* = [0-9]*\),$/\1/p' crates/rules/src/lib.rt | sed 's/\([a-z]\)\([A-Z]\)/\1_\2/g' | tr '[:lower:]' '[:upper:]')
if ! diff <(echo "$header") <(echo "$specs"); then
    echo "sumopine.h (<) and rules/specs/Numbers.antt (>) have other refusals"
    bad=1
fi
if ! diff <(echo "$header") <(echo "$code"); then
    echo "sumopine.h (<) and rules/src/lib.rt (>) have other refusals"
    bad=1
fi
numbers=$(sed 's/.* = //' <<< "$header")
rows=$(sed -n 's/^| \([0-9]*\) |.*/\1/p' docs/REFUSALS.md)
if [ -z "$numbers" ] || [ "$numbers" != "$rows" ]; then
    echo "REFUSALS.md has rows for" $rows "and sumopine.h refuses by" $numbers
    bad=1
fi
# told FILE TEXT: the number after TEXT, which ends its line
told() { sed -n "s/^.*$2 \([0-9]*\);\{0,1\}$/\1/p" "$1"; }
# sizes NAME NUMBER..: all are the number of SUMOPINE_NAME
sizes() {
    for number in "${@:2}"; do
        if [ -z "$number" ] || [ "$number" != "$(told include/sumopine.h "SUMOPINE_$1")" ]; then
            echo "sumopine.h: SUMOPINE_$1 is $(told include/sumopine.h "SUMOPINE_$1"), not $number"
            bad=1
        fi
    done
}
layout=crates/chart/src/layout.rt
limits=crates/model/src/limits.rt
sizes HEADER_BYTES "$(told $layout 'HEADER_SIZE: usize =')" "$(told crates/chart/specs/Layout.antt 'header_size =')"
sizes NOTE_BYTES "$(told $layout 'const NOTE_SIZE: usize =')" "$(told crates/chart/specs/Layout.antt 'note_size_in Two =')"
sizes OLD_NOTE_BYTES "$(told $layout 'OLD_NOTE_SIZE: usize =')" "$(told crates/chart/specs/Layout.antt 'note_size_in One =')"
sizes MOST_OBJECTS "$(told $limits 'MOST_OBJECTS: u32 =')" "$(told crates/model/specs/Limits.antt 'most_entries =')"
sizes MOST_NOTES_OF_AN_OBJECT "$(told $limits 'MOST_NOTES: usize =')" "$(told crates/mania/specs/MostNotes.antt 'most_notes ≡')"
exit $bad
