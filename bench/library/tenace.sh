#!/usr/bin/env bash
# Shows the library in a program that nobody here wrote: Debian's tenace, which links DDS's library. It analyses hands of
# its own with ours and with DDS's, and both windows have to look the same. Needs tenace, xvfb, xdotool and imagemagick.
# Usage: tenace.sh DIR PICTURE [HAND], DIR being a folder that ddfarm-library made. PICTURE gets our window.
set -euo pipefail
library="$(cd "$1" && pwd)"
hand="${3:-/usr/share/doc/tenace/examples/everybody-makes-3nt.lin}"
room="$(mktemp -d)"
export DISPLAY=:93 HOME="$room"
mkdir -p "$room/.local/share"
Xvfb "$DISPLAY" -screen 0 800x600x24 >/dev/null 2>&1 &
trap 'jobs -p | xargs -r kill; rm -rf "$room"' EXIT
sleep 2

# The menu Analysis has "Double dummy" first and "Parscore" third.
choose() {
    xdotool mousemove 253 13 click 1
    sleep 1
    xdotool mousemove 272 "$1" click 1
    sleep 8
}

# Takes the window after both analyses: `look PICTURE WORDS..`, the words being the environment of the program.
look() {
    local picture="$1" program
    env "${@:2}" /usr/games/tenace "$hand" >"$room/log" 2>&1 &
    program=$!
    sleep 4
    grep -q "/libdds" "/proc/$program/maps"
    ! grep -q "^LD_LIBRARY_PATH" <<<"${2:-}" || grep -qF "$library/libdds" "/proc/$program/maps"
    choose 88
    choose 38
    xdotool mousemove 260 340
    sleep 1
    import -window root -crop 514x424+0+0 +repage "$picture"
    kill "$program"
    wait "$program" || true
}

look "$room/theirs.png" HAND=1
look "$2" "LD_LIBRARY_PATH=$library"
differ="$(compare -metric AE "$room/theirs.png" "$2" null: 2>&1)" || true
echo "tenace: $differ points differ"
[[ "$differ" == 0 ]]
