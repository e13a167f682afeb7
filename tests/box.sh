#!/usr/bin/env bash
# The box: for each stored input, each program writes exactly the stored bytes. An entry of box/PROGRAM/ is NAME.in, NAME.args (one line of words,
# '' for an empty one), NAME.out, and NAME.err where something is expected on standard error. Where there is a NAME.list, its name is the program's
# first word. What is expected comes from the paper, not from these programs.
set -u
cd "$(dirname "$0")/.." || exit 2

# Each program, and how many entries it has at least: a box that lost some would pass by saying nothing.
programs='class 44
listing 63
compare 17
chain 18
write 36
marker 24
savings 27'
# The refusals that the entries show. 9 and 21 can't be had: the programs' own buffers are always long enough (theorem `never_short`).
refusals='1 2 3 4 5 6 7 8 10 11 12 13 14 15 16 18 19 20 22 30'

bad=0
complain() {
    echo "box: $*"
    bad=1
}

got=$(mktemp -d)
trap 'rm -rf "$got"' EXIT

declare -A built # where each program lies
run() { # PROGRAM ENTRY
    local words=() errors=/dev/null
    [ -f "$2.args" ] && [ -f "$2.out" ] || { complain "$2 has no args or no out"; return; }
    [ -f "$2.err" ] && errors=$2.err
    read -r -a words <"$2.args"
    words=("${words[@]/#\'\'/}")
    [ -f "$2.list" ] && words=("$2.list" "${words[@]}")
    "${built[$1]}" "${words[@]}" <"$2.in" >"$got/out" 2>"$got/err" || complain "$2 ended with status $?"
    cmp "$2.out" "$got/out" || complain "$2 differs on standard output"
    cmp "$errors" "$got/err" || complain "$2 differs on standard error"
}

while read -r program least; do
    built[$program]=$(tools/build "$program" </dev/null) || { complain "$program is not built"; continue; }
    entries=0
    for input in box/"$program"/*.in; do
        [ -f "$input" ] || continue
        run "$program" "${input%.in}"
        entries=$((entries + 1))
    done
    [ "$entries" -ge "$least" ] || complain "$program has $entries entries, not $least"
done <<<"$programs"

# What is written of list A reads back as the listing that the paper prints.
if [ "${built[write]-}" ] && [ "${built[listing]-}" ]; then
    "${built[write]}" 3 <box/write/list_a.in | "${built[listing]}" | cmp box/listing/sheet_a.out - || complain "list A is not read back"
fi

# box/calls is run by the Rust tests.
for file in box/*/*; do
    [[ $file == box/calls/* ]] && continue
    program=$(basename "$(dirname "$file")")
    grep -q "^$program " <<<"$programs" || complain "$file is for no program of this test"
    [ -f "${file%.*}.in" ] || complain "$file has no input"
done

for number in $refusals; do
    grep -rqE --include='*.out' --include='*.err' "refused $number( |\$)" box || complain "no entry is refused with $number"
done
exit "$bad"
