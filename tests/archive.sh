#!/usr/bin/env bash
# What the archive holds: the exported calls and nothing else, no data that a call could write, nothing from outside but memory moves, no instruction
# that some x86-64 lacks. Before that the look at instructions is shown to find some, and to pass what each has.
source "$(dirname "${BASH_SOURCE[0]}")/host.bash"
need_c
need_archive
tools=${cc%gcc}

exported=$("${tools}nm" --defined-only --extern-only "$archive" | awk 'NF == 3 { print $3 }' | sort | tr '\n' ' ')
echo "archive: exports ${exported}"
calls="serifdove_check serifdove_check_profile serifdove_cold_start serifdove_latch serifdove_publish serifdove_read_rows serifdove_run "
calls+="serifdove_warm_start serifdove_write_rows "
[ "$exported" = "$calls" ] || { echo "archive: expected $calls" && exit 1; }

outside=$("${tools}nm" --undefined-only "$archive" | awk 'NF == 2 { print $2 }' | sort -u | tr '\n' ' ')
echo "archive: takes from outside: ${outside:-nothing}"
for name in $outside; do
    case $name in
    memcpy | memset | memmove) ;;
    *) exit 1 ;;
    esac
done

written=$("${tools}size" -A "$archive" | awk '$1 ~ /^\.(data|bss|tdata|tbss)/ && $2 > 0 { print $1 }' | tr '\n' ' ')
echo "archive: sections that can be written: ${written:-none}"
[ -z "$written" ] || exit 1

# newer OBJECT: its instructions behind SSE2, with the function in which they stand: an archive does not ask the processor for them as a program can
newer() {
    "${tools}objdump" -d --no-show-raw-insn "$1" >"$work/code" || exit 2
    awk -F'\t' '/>:$/ { name = $1; sub(/^[^<]*/, "", name) }
        NF > 1 { split($2, word, " "); if (word[1] ~ /^(v[a-z0-9]+|pabs.*|palign.*|pblend.*|pextr[bdq]|pinsr[bdq]|ph(add|sub|min).*|pmaddubsw|pm(ax|in)(sb|sd|ud|uw)|pmov[sz]x.*|pmulhrsw|pmuldq|pmulld|pshufb|psign.*|ptest|packusdw|pcmp(eq|gt)q|pcmp[ei]str.*|pclmul.*|popcnt.*|crc32.*|blend.*|round[ps][sd]|dpp[sd]|insertps|extractps|mpsadbw|movddup|movs[hl]dup|lddqu|addsubp[sd]|h(add|sub)p[sd]|aes.*|sha(1|256).*|movbe.*|movntdqa|[lt]zcnt.*|andn|bextr|bls[a-z]+|bzhi|mulx|pdep|pext|rorx|sarx|shlx|shrx|ad[co]x)$/) { print name " " word[1]; found = 1 } }
        END { exit !found }' "$work/code"
}

# object FLAGS CODE: compiles it
object() {
    echo "$2" >"$work/small.c"
    $cc -std=gnu11 -O2 $1 -c -o "$work/small.o" "$work/small.c" || exit 1
}

for case in '-msse4.1:__m128i f(__m128i x) { return _mm_cvtepu8_epi64(x); }' '-msse4.1:__m128i f(__m128i x, int y) { return _mm_insert_epi32(x, y, 1); }' \
    '-mssse3:__m128i f(__m128i x) { return _mm_shuffle_epi8(x, x); }' '-mpopcnt:int f(int x) { return __builtin_popcount(x); }' '-mavx:__m128d f(__m128d x, __m128d y) { return x + y; }' \
    '-mbmi2:unsigned long f(unsigned long x, int y) { return x << y; }'; do
    object "${case%%:*}" "#include <immintrin.h>
        ${case#*:}"
    newer "$work/small.o" >"$work/seen" || { echo "archive: self-test: nothing found at ${case%%:*}" && exit 1; }
    echo "archive: self-test: found at ${case%%:*}: $(head -n 1 "$work/seen")"
done
object '' '#include <emmintrin.h>
    __m128i f(__m128i x, int y) { return _mm_packus_epi16(_mm_unpacklo_epi8(_mm_insert_epi16(x, y, 3), x), _mm_max_epi16(x, _mm_shuffle_epi32(x, 1))); }'
! newer "$work/small.o" || { echo "archive: self-test: found where each x86-64 has all" && exit 1; }

! newer "$archive" || { echo "archive: some x86-64 lack these instructions" && exit 1; }
echo "archive: $(grep -c '^ *[0-9a-f]*:' "$work/code") lines of instructions, which each x86-64 has"
