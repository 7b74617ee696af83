#!/usr/bin/env bash
# Lists the public names that stand for more than one thing: definitions of specs/ with one name in two files, and free functions, types, traits and constants of src/ with one name in two crates.
# A function may have the name of the definition that its contract cites: these pairs are told only with --pairs, and are one thing by that contract.
# Methods are known by their type, and are left out. Its status is 1 where a name stands for two things.
set -u
cd "$(dirname "$0")/.." || exit 2
definitions=$(git ls-files 'crates/*/specs/*.antt' | xargs grep -noE '^(abbrev pub|pub data|pub record|unfoldable pub|pub) [^ :({]+' | sed -E 's|^crates/([^/]*)/specs/([^:]*)\.antt:([0-9]+):.* ([^ ]+)$|\4 \1/\2|' | grep -vE '^(mod|use) ')
items=$(git ls-files 'crates/*/src/*.rt' | xargs grep -noE '^pub (const fn|fn|struct|enum|trait|const|type) [A-Za-z_0-9]+' | sed -E 's|^crates/([^/]*)/src/([^:]*)\.rt:([0-9]+):.* ([^ ]+)$|\4 \1/\2|')
twice() {
    sort -u | awk '{ n[$1]++; at[$1] = at[$1] " " $2 } END { for (x in n) if (n[x] > 1) print x ":" at[x] }' | sort
}
double=$(twice <<<"$definitions"; twice <<<"$items")
if [ "${1-}" = --pairs ]; then
    printf '%s\n%s\n' "$definitions" "$items" | twice
fi
if [ -n "$double" ]; then
    printf '%s\n' "$double"
    exit 1
fi
echo "names: no public name stands for two things, of $(wc -l <<<"$definitions") definitions and $(wc -l <<<"$items") items"
