#!/usr/bin/env bash
# Every file that a table row of docs/PAPER.md, docs/PROMISES.md and docs/DECISIONS.md names exists, and every name that it gives behind a file is declared in it.
# In a row, a word in backticks with a slash or an ending is a file; the words in backticks behind it are its names.
# And the other way round: PAPER.md names every file of the paper's definitions and theorems and every claim, PROMISES.md every public function.
# Of the other pages, that every file exists that they name in backticks by a path.
set -u
cd "$(dirname "$0")/.." || exit 2

declared() { # FILE: the names it declares, a line each
    case $1 in
    *.antt)
        awk '{
            i = 1
            while ($i == "pub" || $i == "abbrev" || $i == "unfoldable") i++
            if ($i == "data" || $i == "record") print $(i + 1)
            else if ($(i + 1) == ":" || $(i + 1) ~ /^[{].*[}]$/) print $i
            else if ($(i + 1) ~ /^[{]/) print $i
        }' "$1"
        ;;
    *.rt) sed -n 's/^ *\(pub\)\{0,1\}\((crate)\)\{0,1\} *\(const \|unsafe \)*\(extern "C" \)\{0,1\}\(fn\|struct\|enum\|trait\|const\|type\) \([A-Za-z0-9_]*\).*/\6/p' "$1" ;;
    *) grep -o '[A-Za-z0-9_-]*' "$1" ;;
    esac
}

find_file() { # PATH: where it stands
    for at in "$1" "crates/$1" "crates/paper/$1"; do
        [ -e "$at" ] && { echo "$at"; return; }
    done
    return 1
}

bad=0
seen=0
named=$(mktemp) # PAGE FILE NAME, a line for each name that a page gives; PAGE FILE alone for the file itself
trap 'rm -f "$named"' EXIT
while IFS= read -r line; do
    page=${line%%:*}
    file=
    while IFS= read -r word; do
        case $word in
        */* | *.md | *.antt | *.rt | *.sh | *.h | *.edit)
            if ! file=$(find_file "$word"); then
                echo "$page names the file $word, which does not exist"
                bad=1
            fi
            echo "$page $file" >>"$named"
            seen=$((seen + 1))
            ;;
        *)
            [ -n "$file" ] && [ -f "$file" ] || continue
            seen=$((seen + 1))
            echo "$page $file $word" >>"$named"
            if ! declared "$file" | grep -qxF -- "$word"; then
                echo "$page names $word of $file, which is not declared there"
                bad=1
            fi
            ;;
        esac
    done < <(printf '%s\n' "$line" | grep -o '`[^`]*`' | tr -d '`')
done < <(grep -H '^|' docs/PAPER.md docs/PROMISES.md docs/DECISIONS.md 2>/dev/null)

while IFS=: read -r page word; do
    word=${word//\`/}
    seen=$((seen + 1))
    find_file "$word" >/dev/null && continue
    echo "$page names the file $word, which does not exist"
    bad=1
done < <(grep -oHE '`[^` ]+/[^` ]+\.(antt|rt|rs|sh|c|h|md|edit)`' README.md docs/READING.md docs/ASSUMED.md docs/BENCHMARKS.md docs/FORMAT.md docs/changes/*.md)

# A page without names would pass by saying nothing.
[ "$seen" -ge 500 ] || { echo "only $seen names found in docs/"; bad=1; }

missing() { # PAGE FILE [NAME]
    grep -qxF -- "$*" "$named" && return
    echo "$1 does not name ${3:+$3 of }$2"
    bad=1
}

# The paper's files; one that only lists modules, or that only others' proofs are made of, has nothing to name.
for file in crates/paper/specs/*.antt crates/paper/specs/Claims/*.antt crates/paper/proofs/*.antt crates/paper/proofs/Exactly/*.antt; do
    case $file in */Firsts.antt) continue ;; esac
    declared "$file" | grep -q . && missing docs/PAPER.md "$file"
done
for file in crates/paper/specs/Claims/*.antt; do
    for claim in $(sed -n 's/^pub \(record\|data\) \([^ ]*\).*/\2/p' "$file"); do
        missing docs/PAPER.md "$file" "$claim"
    done
done

# Public functions. A crate's program, `main`, is no function that others call.
for file in crates/*/src/*.rt; do
    for name in $(sed -n 's/^ *pub *\(const \|unsafe \)*\(extern "C" \)\{0,1\}fn \([A-Za-z0-9_]*\).*/\3/p' "$file"); do
        [ "$name" = main ] || missing docs/PROMISES.md "$file" "$name"
    done
done
exit "$bad"
