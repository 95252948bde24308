#!/usr/bin/env bash
# The pages are true where a script can tell: every link leads to a file, every test and program that is named is there, and the README's
# example compiles and prints what it should.
source "$(dirname "${BASH_SOURCE[0]}")/host.bash"
need_c
need_archive
bad=0
links=0
for page in README.md samples/README.md docs/*.md docs/landings/*.md; do
    while read -r link; do
        links=$((links + 1))
        [ -e "$(dirname "$page")/$link" ] || { echo "pages: $page: there is no $link" && bad=1; }
    done < <(grep -o '](\([^)#]*\)' "$page" | sed 's/^](//' | grep -v '^http' | grep -v '^$')
    case $page in docs/landings/*) continue ;; esac # a landing tells what stood then
    while read -r file; do
        [ -e "$file" ] || { echo "pages: $page: there is no $file" && bad=1; }
    done < <(grep -o -E '\b(tests|host|oracle|bench|include|samples|docs)/[a-z_0-9/]*\.(sh|py|c|h|md|csv|day|trace|svg)\b' "$page" | sort -u)
done
[ "$links" -ge 20 ] || { echo "pages: only $links links were found" && bad=1; }
[ "$bad" -eq 0 ] || exit 1
echo "pages: $links links"

sed -n '/^```c$/,/^```$/p' README.md | sed '1d;$d' >"$work/readme.c"
[ "$(wc -l <"$work/readme.c")" -eq 10 ] || { echo "pages: README.md: the example has not ten lines" && exit 1; }
$cc -std=c11 $warnings -Iinclude -o "$work/readme" "$work/readme.c" "$archive" || exit 1
[ "$(run "$work/readme")" = "Q1 1" ] || { echo "pages: README.md: the example prints otherwise" && exit 1; }
echo "pages: the README's example"
