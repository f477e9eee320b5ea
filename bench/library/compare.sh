#!/usr/bin/env bash
# Compares the library with DDS's own. A program that was compiled with DDS's header and linked with DDS's library
# prints what all functions answer, first with DDS's library and then with ours. A second one makes hostile calls.
# Usage: compare.sh DIR [SEED [DEALS [POSITIONS [CALLS]]]], DIR being a folder that ddfarm-library made.
set -euo pipefail
library="$(cd "$1" && pwd)"
seed="${2:-1}" deals="${3:-20}" positions="${4:-200}" calls="${5:-1000}"
here="$(cd "$(dirname "${BASH_SOURCE[0]}")" && pwd)"
room="$(mktemp -d)"
trap 'rm -rf "$room"' EXIT
failed=0

# Prints how many lines differ, and the first ones.
compare() {
    local differ
    differ="$(diff "$room/theirs" "$room/ours" | grep -c '^[<>]')" || true
    echo "compare: $1: $(wc -l <"$room/theirs") lines, $differ differ"
    ((differ == 0)) || { diff "$room/theirs" "$room/ours" | head -n 20; failed=1; }
}

if ! echo '#include <dds/dll.h>' | cc -E - >/dev/null 2>&1; then
    echo "compare: nothing is compared: libdds-dev is not installed"
    exit
fi
flags=(-std=c11 -O2 -Wall -Wextra)
for program in client hostile; do cc "${flags[@]}" "$here/$program.c" -o "$room/$program" -ldds; done
cc -fsyntax-only -std=c11 -w -DHEADER='<dds/dll.h>' "$here/../../library/test/layout.c"
# DDS leaves dump.txt in its folder at each fault.
cd "$room"
./client "$seed" "$deals" "$positions" >theirs
LD_LIBRARY_PATH="$library" ./client "$seed" "$deals" "$positions" >ours
compare "answers"
./hostile "$seed" "$calls" beside >theirs 2>/dev/null
LD_LIBRARY_PATH="$library" ./hostile "$seed" "$calls" alone >ours
# Where DDS crashed or took too long, takes what ours refuses, or a par depends on who calls first, there is nothing to
# compare.
paste -d '\n' theirs ours | awk 'NR % 2 { theirs = $0; next } theirs ~ / (died|hot|lax)/ { left++; next }
    { print theirs >"theirs.kept"; print >"ours.kept" } END { print "compare: " left + 0 " hostile calls are not compared" }'
touch theirs.kept ours.kept
mv theirs.kept theirs
mv ours.kept ours
compare "hostile calls"
exit "$failed"
