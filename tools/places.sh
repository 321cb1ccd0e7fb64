#!/usr/bin/env bash
# Lists the places in src/ that docs/DESIGN-PASS.md counts, point by point: tools/places.sh [POINT]. Run it on any commit's tree from
# its top; with no POINT it prints the number of places of each.
set -u
shopt -s nullglob
src=(crates/*/src/*.rt)

look() { grep -nE "$1" "${src[@]}" | grep -vE ':[0-9]+: *//'; }

# Numbers for kinds and refusals, a number with a value beside it.
p1() { look 'struct (Loaded|Stored) |const [A-Z_]+: u8|^    pub (replacement|write_policy|write_alloc|inclusion): u8|fn .*(-> u8$|-> u8 |(Loaded|Stored)\b|(no|kind): u8)|reason == 0'; }
# Twins: functions of one shape over several widths or sizes, structs that differ in one field.
p2() { look 'fn (store|tg_ram_store)(8|16|32)|fn (each|main|quotient|remainder|print|print_last|print_after)\b|struct (Loaded|Stored) '; }
# Loops that count an index.
p3() { look '^ *(while|loop)\b'; }
# Defaults, conversions, printing and arithmetic written by hand; types without the common derives.
p4() { look 'fn (default|wide|bytes_of|word_at|long_at|all|quotient|remainder|ceiling|is_power_of_two|wrapping_mul_u64|print|print_last|print_after|print_bytes|end_line|stored|told|at_most_8)\b|std::num::|derive\(Clone, Copy\)'; }
# Facts asked of arguments, and parameters that travel together.
p5() { look '^ *requires'; look 'fn .*(list: &\[u8\], at|ram: &(mut )?\[u8\], addr)'; }
# A buffer with a length or a place in it beside it.
p6() { look '(n|at|from|len): usize[,)]|\[0u8; [0-9]+\]'; }
# Switches on which step to run.
p7() { look '\bmatch\b|\bdyn\b|fn\('; }
# Lemmas that no proof, definition or function cites: a law of a proofs/*.antt that stands nowhere else, but in itself.
p8() {
    for file in crates/*/proofs/*.antt; do
        for law in $(sed -nE 's/^ *(pub )?([a-z][a-z0-9_]*) :( .*)?$/\2/p' "$file"); do
            grep -rwlE "$law" crates/*/src crates/*/proofs crates/*/specs | grep -qvF "$file" ||
                [ "$(grep -cwE "$law" "$file")" -gt 2 ] || echo "$file: $law"
        done
    done
}

if [ $# -eq 1 ]; then "p$1"; else for i in 1 2 3 4 5 6 7 8; do echo "point $i: $(p$i | wc -l)"; done; fi
