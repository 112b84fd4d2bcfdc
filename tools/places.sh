#!/bin/sh
# The places that the design pass counts, by what a line of source shows. Run at the top: tools/places.sh [FOLDER].
cd "${1:-.}" || exit 1
src() { ls crates/*/src/*.rt; }
count() {
  n=$(src | xargs grep -nE "$2" | wc -l)
  printf '%-58s %s\n' "$1" "$n"
}
count '1 a match that rebuilds a Result or an Option' '(Some|Ok|Err)\([^)]*\) => (Some|Ok|Err)\(|None => None'
count '1 a refusal returned by hand from a let-else or a guard' 'return Err\('
count '1 a level as a number with a bound asked for' 'level ≤ 2'
count '3 a loop over an index range' 'for [a-z_]+ in [0-9a-z]+\.\.'
count '3 a loop with its index beside' '\.enumerate\(\)'
count '4 a record copied field by field' 'flags: _,|r: (self|flags)\.r,'
count '4 an equality by hand' 'as u8 == other|self\.space == space'
count '5 hart below 8 asked for' 'requires .*hart < 8'
count '5 a frame below 2^44 asked for or promised' '< 2 \^ 44'
count '5 a busy use asked for' 'one (to|from|into) ≡ 1'
count '5 space and page side by side' 'space: (u64|Option<u64>), page: (u64|Option<u64>)'
count '6 a buffer with its length beside' 'height: usize|cursor: usize'
