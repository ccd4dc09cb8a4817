#!/usr/bin/env bash
# Counts the places of docs/DESIGN-PASS.md in the code of a commit, point by point: tools/count_places.sh [COMMIT], with -l to list them.
set -euo pipefail
cd "$(dirname "$0")/.."
list=
[ "${1:-}" = -l ] && list=1 && shift
commit=${1:-HEAD}
# places POINT WHAT PATTERN: lines of src/ that match
places() {
    local found
    found=$(git grep -nE "$3" "$commit" -- 'crates/*/src/*.rt' | sed "s/^[^:]*:crates.//" | grep -vE '^[^:]*:[0-9]*: *//' || true)
    printf '%-3s %4d  %s\n' "$1" "$(grep -c . <<< "$found" || true)" "$2"
    [ -z "$list" ] || [ -z "$found" ] || sed 's/^/          /' <<< "$found"
}
places 1a "cases of own enums that say nothing, or a refusal" '^    (Refused|Missing|Nothing|Spent|Before|Untold)(\(|,$)'
places 1b "a flag with a value beside it" '^    pub (fits|refused|hold): bool'
places 1c "functions that answer a refusal's number, or 0" 'fn [a-z0-9_]*(refusal|refuse|first)\(.*-> u8$'
places 1d "numbers for kinds and flags" 'kind: u(64|32)|given: u(size|32)|has_[a-z]+: u32|fn (read_flag|is_long).*-> usize'
places 1e "refusals by a constant number" '\bnumbers::[A-Z_]+'
places 2a "functions of one type or size of several" '^(pub )?fn [a-z0-9_]*(_f32|_f64|f32_at|f64_at|f32_refusal|f64_refusal|get3|get8|put3|put8|read32|saturate_u8|saturate_u16|_old_[a-z_]+|_twice)[(<]|fn old_'
places 2b "types of one type of several" '^pub struct (Lasting|LastingFlag|Chance|CircleChances|MirrorChances|Ask)\b'
places 2c "functions written once for each of several things" '^(pub )?fn (take_turn|generate|lend|generate_owned|timing_point_at|difficulty_point_at|effect_point_at|put_job|put_job_sheet|put_printed|put_sheet_printed|covers|strictly_inside|nearer|main)\('
places 3  "loops by while" '^ *while '
places 4  "equality, order, conversion by hand" '^ *(pub )?fn (number|is_less|is_greater|least|min|max|clamp|not_negative|precedes|stair_number|saturate_u8|saturate_u16|version_of|is_digit|digit_code|is_set)[(<]'
places 5a "a deck's bounds asked in a contract" 'requires.*columns ≤ 9'
places 5b "what the density's queue holds, in a contract" '(requires|ensures).*Held '
places 5c "room in the lent words asked in a contract" 'requires.*length (words|spare|src|dst)'
places 5d "a count of a chart's notes beside its bytes" 'requires.*count ≡ length \(notes_in chart.now\)'
places 5e "a moment asked to be finite, in a contract" 'requires.*finite '
places 5f "the deck of lines that are read, in a contract" 'requires.*Columns columns'
places 5g "a list's bytes, place and count beside one another" 's: &\[u8\], at: usize, count: usize'
places 5h "what a slider's loops and patterns ask, in a contract" 'requires.*\b(Fits|Ready|Turns) g'
places 6a "lent buffers of words, whose number stands elsewhere" '(words|spare|src|dst): &(mut )?\[u64\]'
places 6b "lengths beside arrays, and parts by their places" '^    pub (len: u8|count: usize|input_end: usize|numbers_end: usize)'
places 6c "parallel arrays" '^const CAPS_'
places 7  "switches on which step to run" 'match ((o|s)\.)?(way|next|section|self|kind|w) \{'
printf '%-3s %4d  %s\n' 8 "$(git ls-tree -r --name-only "$commit" crates | grep -cE 'proofs/.*/(Answers|Invariants)\.antt$')" "files of answers and invariants"
