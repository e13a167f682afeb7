#!/usr/bin/env bash
# In docs/FORMAT.md the dump of sheet A is sheet A, byte for byte, and the listing below it is what the program listing must print of it.
set -u
cd "$(dirname "$0")/.." || exit 2
bad=0
dumped=$(sed -n 's/^ *[0-9]\{1,3\}  *\(\([0-9a-f][0-9a-f] \)\{6,8\}\).*/\1/p' docs/FORMAT.md | tr -d ' \n')
sheet=$(od -An -v -tx1 box/listing/sheet_a.in | tr -d ' \n')
[ -n "$sheet" ] && [ "$dumped" = "$sheet" ] || { echo "docs/FORMAT.md does not show sheet A"; bad=1; }
listed=$(sed -n '/^events [0-9]/,/^```/p' docs/FORMAT.md | sed '$d')
[ -n "$listed" ] && [ "$listed" = "$(cat box/listing/sheet_a.out)" ] || { echo "docs/FORMAT.md does not list sheet A"; bad=1; }
exit "$bad"
