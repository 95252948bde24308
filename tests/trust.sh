#!/usr/bin/env bash
# docs/TRUST.md lists every file of definitions with its lines: those that a reader must believe, and those whose first lines say that
# they are not part of it; and the sums. No file of the first sort imports one of the second.
set -u
cd "$(dirname "${BASH_SOURCE[0]}")/.." || exit 2
page=docs/TRUST.md
bad=0
believed=0
beside=0
# is_beside FILE: it says that a reader needs it not
is_beside() {
    head -n 2 "$1" | grep -q 'Not part of what a reader has to believe'
}

for file in crates/*/specs/*.antt; do
    [ "$(basename "$file")" = Lib.antt ] && continue
    lines=$(wc -l <"$file")
    row="| \`$file\` | $lines |"
    if is_beside "$file"; then
        beside=$((beside + lines))
        grep -q -x -F "$row" "$page" || { echo "trust: $page has no line '$row'" && bad=1; }
    else
        believed=$((believed + lines))
        grep -q -F "$row " "$page" || { echo "trust: $page has no line '$row ..'" && bad=1; }
        while read -r crate module; do
            used=crates/$crate/specs/$module.antt
            if [ -f "$used" ] && is_beside "$used"; then echo "trust: $file imports $used" && bad=1; fi
        done < <(sed -n 's/^use Rattle\.\([a-z_]*\)\.specs\.\([A-Za-z]*\).*/\1 \2/p' "$file")
    fi
done
listed=$(grep -c '^| `crates/[a-z_]*/specs/' "$page")
there=$(find crates/*/specs -name '*.antt' ! -name Lib.antt | wc -l)
[ "$listed" -eq "$there" ] || { echo "trust: $page lists $listed files, there are $there" && bad=1; }
for sum in "$believed to believe" "$beside beside"; do
    grep -q -F "**${sum%% *} lines** ${sum#* }" <(tr -d , <"$page") || { echo "trust: $page does not say **${sum%% *} lines** ${sum#* }" && bad=1; }
done
echo "trust: $there files of definitions, $believed lines to believe, $beside beside"
exit $bad
