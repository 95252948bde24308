#!/usr/bin/env bash
# The box has no divide instruction, and the vendor's routine for it may not be linked. So no instruction of the archive divides; it has and calls
# nothing but its own functions and memory moves, so no routine for division either; and the code that it is made of has no '/' and no '%', nor has the
# header. Before that each of these three looks is shown to find what it is for, and to pass what it should.
source "$(dirname "${BASH_SOURCE[0]}")/host.bash"
need_c
need perl perl-base
need_archive
tools=${cc%gcc}

# divisions OBJECT: its instructions that divide (div, idiv, divsd, vdivps, fdivp, fidiv, fprem ..), with the function in which they stand
divisions() {
    "${tools}objdump" -d --no-show-raw-insn "$1" >"$work/code" || exit 2
    awk -F'\t' '/>:$/ { name = $1; sub(/^[^<]*/, "", name) }
        NF > 1 { sub(/[<#].*/, "", $2); if ($2 ~ /(^| )([a-z]*div[a-z0-9]*|fprem1?)( |$)/) { print name " " $2; found = 1 } }
        END { exit !found }' "$work/code"
}

# routines OBJECT: names in it that are neither ours, nor of a table of a `match` of ours, nor those of memory moves. So those of routines for division too, whatever a compiler calls them.
own=$(sed -n 's/^serifdove staticlib: //p' crates.txt | tr ' ' '|')
routines() {
    "${tools}nm" "$1" >"$work/names" || exit 2
    awk 'NF > 1 { print $NF }' "$work/names" | sort -u | grep -v -E "^((\.Lswitch\.table\.)?(serifdove_[a-z_]+|($own)(::[A-Za-z_0-9]+)+)|\.L[A-Z0-9_.]+|memcpy|memmove|memset)$"
}

# signs FILE..: its lines of code with a '/', a '%' or a call that divides (div_euclid, wrapping_rem, ..). Literals, comments, contracts and what contracts
# alone use are no code.
signs() {
    cat "$@" >/dev/null || exit 2
    perl -CSD -Mutf8 -0777 -ne '
        s{"(?:\\.|[^"\\])*"|\x27(?:\\.|[^\x27\\])\x27|/\*.*?\*/|//[^\n]*|^ghost use [^;]*;|^#include [^\n]*}{ $& =~ tr/\n//cdr }gmse;
        s{^ *(?:requires|ensures)\*?(?: \w+)? (\{(?:[^{}]|(?1))*\})}{ $& =~ tr/\n//cdr }gmse;
        my $at = 0;
        for (split /\n/) { $at++; if (m{[/%]|\b(\w+_)?(div|rem)(_\w+)?\(}) { print "$ARGV:$at: $_\n"; $found = 1 } }
        END { exit !$found }' "$@"
}

# finds_in LOOK FILE WHAT: it finds something there; passes_over LOOK FILE WHAT: it finds nothing
finds_in() {
    "$1" "$2" >"$work/seen" || { echo "no divide: self-test: $1: nothing found in $3" && exit 1; }
    echo "no divide: self-test: $1: found in $3:$(head -n 1 "$work/seen" | sed "s,^$2:[0-9]*: *,,; s/^/ /")"
}
passes_over() {
    ! "$1" "$2" >"$work/seen" || { echo "no divide: self-test: $1: found in $3:" && cat "$work/seen" && exit 1; }
    echo "no divide: self-test: $1: passes over $3"
}

# object CODE: compiles it
object() {
    echo "$1" >"$work/small.c"
    $cc -std=gnu11 -O2 -c -o "$work/small.o" "$work/small.c" || exit 1
}

for type in unsigned int uint64_t int64_t double 'long double'; do
    object "#include <stdint.h>
        $type serifdove_small($type x, $type y) { return x / y; }"
    finds_in divisions "$work/small.o" "a quotient of $type"
done
object '#include <immintrin.h>
    __attribute__((target("avx"))) __m256 serifdove_small(__m256 x, __m256 y) { return _mm256_div_ps(x, y); }'
finds_in divisions "$work/small.o" "eight quotients at once"
object 'void serifdove_small(void) { __asm__("fprem"); }'
finds_in divisions "$work/small.o" "a remainder of floating point"
object 'unsigned divide(unsigned x) { return x / 100 * 7 + x / 8; } int serifdove_small(int x) { return x / 100; }'
passes_over divisions "$work/small.o" "quotients that the compiler multiplies and shifts"

object 'unsigned __int128 serifdove_small(unsigned __int128 x, unsigned __int128 y) { return x / y; }'
finds_in routines "$work/small.o" "a quotient of 128 bits"
for name in __divsi3 __umoddi3 __divmodsi4 __udivmodqi4 __divdf3 __aeabi_idiv __aeabi_uldivmod __rt_udiv __mspabi_remi __c28xabi_divl __pruabi_divu _aulldiv \
    _alldvrm .urem ldiv fmod; do
    object "long routine(long, long) __asm__(\"$name\"); long serifdove_small(long x, long y) { return routine(x, y) + 1; }"
    finds_in routines "$work/small.o" "a call of $name"
done
object 'unsigned __udivsi3(unsigned x, unsigned y) { unsigned q = 0; while (x >= y) { x -= y, q++; } return q; }'
finds_in routines "$work/small.o" "a routine of its own"
object '#include <string.h>
    void *serifdove_small(char *to, const char *from, size_t n) { return memmove(memcpy(memset(to, 0, n), from, n), from + 1, n); }'
passes_over routines "$work/small.o" "moves of memory"

for line in 'let q = n / 100;' '(bits % 256) as u8' 'q /= 2;' 'q %= 2; // q % 2' 'let a = b/c; /* / */' 'n.div_euclid(100)' 'u32::wrapping_rem(n, 10)' \
    'std::num::checked_div_u32(n, 100)' 'f(b"//", n / 10)' "f(b'/', '\"', n % 10)"; do
    printf 'fn small(n: u32) -> u32\n    requires { n ≡ n }\n    ensures equals { result ≡ f { x = n } }\n{\n    %s\n}\n' "$line" >"$work/small.rt"
    finds_in signs "$work/small.rt" "a line of code"
done
cat >"$work/small.rt" <<'CODE'
fn small(n: u32) -> u32
    requires { "{" ≡ f n } // {
{
    if n < 2 { return n / 2 } // }
    n
}

fn other(n: u32) -> u32
    ensures { "}" ≡ f result }
CODE
finds_in signs "$work/small.rt" "code between clauses with open braces in literals and comments"
printf 'fn small(n: u32) -> u32 {\n    if requires { n / 100 } else { 0 }\n}\n' >"$work/small.rt"
finds_in signs "$work/small.rt" "a block behind a word of clauses"
cat >"$work/small.rt" <<'CODE'
ghost use Rattle.std.specs.Prelude.{
    ◌/◌, ◌%◌,
};
// n / 100, n % 100
fn small(n: u32) -> u32
    requires { n / 100 ≡ f { x = n / 100 } n }
    ensures quotient { (result ≡ n / 100)
        × (n % 100 ≡ 0) }
    ensures* { n % 10 ≡ 0 }
{
    remembered(divided(n >> 2), b"/") /* n / 4 */
}
CODE
passes_over signs "$work/small.rt" "literals, comments, contracts and other calls"

# ---- the archive

! divisions "$archive" || { echo "no divide: the archive divides" && exit 1; }
disassembled=0
for name in $("${tools}nm" --defined-only --extern-only "$archive" | awk 'NF == 3 { print $3 }'); do
    grep -q "<$name>:\$" "$work/code" || { echo "no divide: $name is not disassembled" && exit 1; }
    disassembled=$((disassembled + 1))
done
[ "$disassembled" -gt 0 ] || { echo "no divide: no call is disassembled" && exit 1; }
echo "no divide: $disassembled calls, $(grep -c '^ *[0-9a-f]*:' "$work/code") lines of instructions: none divides"
! routines "$archive" || { echo "no divide: the archive has, or calls, what may be a routine for division" && exit 1; }
echo "no divide: the archive has no routine for division and calls none"

crates="serifdove $(sed -n 's/^serifdove staticlib: //p' crates.txt)"
files=()
for crate in $crates; do
    mapfile -t -O "${#files[@]}" files < <(find "crates/$crate/src" -name '*.rt')
done
! signs "${files[@]}" include/serifdove.h || { echo "no divide: this code divides" && exit 1; }
echo "no divide: $(wc -w <<<"$crates") crates, $(cat "${files[@]}" | wc -l) lines: no '/' and no '%' in their code, nor in the header"
