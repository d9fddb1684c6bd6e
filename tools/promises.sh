#!/usr/bin/env bash
# Shows that the pages on what is proved (docs/PROMISES.md, CORES.md, DEMANDS.md, READING.md) name only what exists: each name between backquotes is a
# crate, a file, a must-fail edit, or a word of the crates' code, definitions and proofs. Prints what is not found; exit status 1 where anything is not.
set -euo pipefail
cd "$(dirname "$0")/.."
words="$(mktemp)"
trap 'rm -f "$words"' EXIT
{
  find crates -name out -prune -o -type f \( -name '*.rt' -o -name '*.antt' \) -exec cat {} + | tr -s ' \t(){}[],;:."`' '\n'
  find crates -name out -prune -o -path '*/must-fail/*.edit' -exec basename {} .edit \;
  find crates -mindepth 1 -maxdepth 1 -type d -exec basename {} \;
} | sort -u >"$words"
missing=0
count=0
section=""
for page in PROMISES CORES DEMANDS READING; do
  while IFS= read -r line; do
    case "$line" in '## '*) section="$(printf '%s' "$line" | sed 's/^## `\{0,1\}\([^`]*\)`\{0,1\}.*/\1/')" ;; esac
    while IFS= read -r name; do
      [ -n "$name" ] || continue
      count=$((count + 1))
      case "$name" in
      */*)
        path="${name%%[ ,]*}"
        [ -e "crates/$path" ] || [ -e "crates/$section/$path" ] || [ -e "$path" ] || {
          crate="${path%%/*}" edit="${path#*/}"
          [ -e "crates/$crate/must-fail/$edit.edit" ]
        } || { echo "not found: $name (in $page, $section)"; missing=$((missing + 1)); }
        ;;
      *)
        word="$(printf '%s' "$name" | tr -s ' \t(){}[],;:."' '\n' | head -n 1)"
        [ -z "$word" ] || grep -qxF -- "$word" "$words" || { echo "not found: $name (in $page, $section)"; missing=$((missing + 1)); }
        ;;
      esac
    done < <(printf '%s\n' "$line" | grep -oE '`[^`]+`' | tr -d '`')
  done <"docs/$page.md"
done
echo "promises: $count names, $missing not found"
[ "$missing" -eq 0 ]
