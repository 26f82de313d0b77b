#!/usr/bin/env bash
# Counts the places that docs/DESIGN-PASS.md speaks of, point by point: `tools/places.sh COMMIT`, or with no commit what
# stands in the working tree. `tools/places.sh COMMIT show` prints the lines too.
cd "$(dirname "$0")/.." || exit 2
at=${1:-}
show=${2:-}
src=':(glob)crates/*/src/**/*.rt'
proofs=':(glob)crates/*/proofs/**/*.antt'

# One line for a pattern: how many lines of src/ it fits.
count() {
  local what=$1 pattern=$2
  echo "$what: $(git grep -hE "$pattern" $at -- "$src" | wc -l)"
  if [ -n "$show" ]; then git grep -nE "$pattern" $at -- "$src" | sed 's/^/    /'; fi
}

# The same for a line and the one behind it.
count_behind() {
  local what=$1 first=$2 second=$3
  echo "$what: $(git grep -h -A1 -E "$first" $at -- "$src" | grep -cE "$second")"
  if [ -n "$show" ]; then git grep -n -A1 -E "$first" $at -- "$src" | grep -E "$second" | sed 's/^/    /'; fi
}

echo "1. Option, Result and enums by hand"
count_behind "  errors handed on, let .. else" 'let .* else \{$' 'return Err\('
count "  errors handed on, match" 'Err\([a-z_]+\) => (return )?(Err\(|DeskAnswer|\(|Some)|Ok\([a-z_]+\) => (Ok\(|\()'
count "  errors handed on, if let" 'if let Err\('
count "  cases for none or for a refusal" '^ +(None|Refused\(.*|NoMemory|NoFormat|NoLayer\(.*|TwoLayers\(.*),$'
count "  numbers for kinds" 'kind: u8|Frame\(u8\)|Kind\(u8\)|Write\(u8|Option<u8>, Rec'
count "  numbers told by a match" '=> [0-9]+,$'
count "  truth told by a match" '=> (true|false),$'
count "  options taken apart by a match" '(Some|None)(\([a-z_]+\))? => (Some\(|None|[a-z]+,)'
echo "3. Loops"
count "  over numbers, or while" '^ *(for .* in .*\.\.|while |loop \{)'
count "  an index, written by or counted on" '^ *(next|index|from|taken|after) \+?= |\[(index|next|k|at \+ .*)\] = '
echo "4. Conversion and printing by hand"
count "  functions" 'fn (of|named|mark_of|octet_of|kind_of|kind_number|number|at_terminal|told|ended|wrote|bit_of|good|hex_digit|from_octets|to_octets|name|[a-z_]*_name|reason|[a-z_]*_reason|symbol|show_[a-z]*)\b'
echo "5. Facts and parameters that are repeated"
count "  a frame buffer has 255 octets" '255 ≤ length'
count "  the user octets suit the kind" 'count_suits [a-z_. ]*\(?length .*≡ true|count_suits [a-z_. ]* count ≡ true|length octets.now < 256|sum ≡ frames.sum_of'
count "  parameters or settings that travel together" 'settings\.fixed settings\.header|marks: u16,? *(octets: u8)?|buffer: &mut \[u8\],$|frame_buffer: &mut Vec<u8>,$|at: usize, '
echo "6. Lengths beside buffers, searches by hand"
count "  a count beside a buffer" 'count: usize,?$|, count\)$|\.take\(count\)|buffer: &Vec<u8>, count'
count "  the next row searched for" 'next_row\('
echo "7. Switches on which step to run"
count "  a case for each format in each step" 'Hearing::Ft2\(receiver\) =>'
count "  tables of functions" '\bfn\('
echo "8. Proofs"
files=$(git grep -lE '' $at -- ':(glob)crates/*/proofs/**/Answers.antt' | wc -l)
answers=$(git grep -hE '^pub ' $at -- ':(glob)crates/*/proofs/**/Answers.antt' | wc -l)
lines=$(git grep -hE '' $at -- "$proofs" | wc -l)
echo "  files of answers: $files; answers: $answers; lines of proofs, lemmas included: $lines"
