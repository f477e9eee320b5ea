#!/usr/bin/env bash
# Tries ddfarm-machines on three hosts, which are this machine: sshd on ports of 127.0.0.1, with keys made for it. One
# is killed on the way, two runs are ended by a signal. Then a fourth host tells every kind of lie. The tables have to
# be those of `table` each time, and nothing may be left of what was started.
#
# Usage: bench/machines/try.sh. It needs Debian's openssh-server and parallel, and the program built (run ./ddfarm
# once). PORT is the first of four ports, by default 2261. It ends with status 1 where something wasn't as it has to be.
set -euo pipefail

root="$(cd "$(dirname "${BASH_SOURCE[0]}")/../.." && pwd)"
room="$(mktemp -d)"
daemons=()
failed=0
trap 'for daemon in "${daemons[@]}"; do kill $(family "$daemon") 2>/dev/null || true; done; rm -rf "$room"' EXIT
trap 'exit 1' INT TERM

# Makes a host, named in the configuration of an `ssh` that stands first on the path: NAME PORT OPTIONS of its sshd.
make_host() {
    cat >>"$room/config" <<END
Host $1
  HostName 127.0.0.1
  Port $2
  IdentityFile $room/user
  StrictHostKeyChecking no
  UserKnownHostsFile /dev/null
  LogLevel ERROR
END
    /usr/sbin/sshd -D -e -f /dev/null -p "$2" -h "$room/host" -o ListenAddress=127.0.0.1 -o StrictModes=no \
        -o AuthorizedKeysFile="$room/user.pub" -o PidFile=none -o UsePAM=no -o MaxStartups=100 "${@:3}" \
        2>>"$room/sshd.log" &
    daemons+=($!)
    disown
}

make_hosts() {
    local name port="${PORT:-2261}"
    mkdir -p "$room/bin" "$room/tmp"
    ((UID != 0)) || mkdir -p /run/sshd
    ssh-keygen -q -t ed25519 -N "" -f "$room/host"
    ssh-keygen -q -t ed25519 -N "" -f "$room/user"
    printf '#!/bin/sh\nexec /usr/bin/ssh -F "%s" "$@"\n' "$room/config" >"$room/bin/ssh"
    chmod +x "$room/bin/ssh"
    for name in one two three; do
        make_host "$name" $((port++))
        echo "1/$name" >>"$room/three"
    done
    make_host liar "$port" -o ForceCommand="$room/liar.sh"
    echo liar >"$room/liar"
    sleep 1
}

# What the fourth host does, whatever it is told to do: the word in $room/lie says which lie it tells. `searched` does
# what was asked, which prints evidence.
make_liar() {
    cat >"$room/liar.sh" <<END
#!/usr/bin/env bash
searched() { sh -c "\$SSH_ORIGINAL_COMMAND"; }
falsely() { searched | sed -E 's/^([NESW]) 7 /\1 8 /; s/^([NESW]) 6 /\1 7 /; s/^([NESW]) 4 /\1 3 /'; }
lie="\$(cat "$room/lie")"
[[ "\$SSH_ORIGINAL_COMMAND" != *nproc || "\$lie" == crowd ]] || exec nproc
case "\$lie" in
    tricks) falsely ;;
    repeats) falsely >"$room/falsely"; for turn in {1..9}; do cat "$room/falsely"; done ;;
    foreign) searched | sed 's/^deal .*/deal N:AKQJT98765432... .AKQJT98765432.. ..AKQJT98765432. ...AKQJT98765432/' ;;
    swapped) searched | sed -E 's/^(deal N:)([^ ]+) ([^ ]+)/\1\3 \2/' ;;
    bytes) searched | sed -E 's/^(N [0-9]+ )[0-9]\./\13./' ;;
    cut) searched | head -c -1000 ;;
    tables) searched >/dev/null; sed 's/ [0-9]$/ 7/' "$room/club-tables.pbn" ;;
    nothing) ;;
    rubbish) head -c 30000000 /dev/urandom ;;
    endless) yes "DDE 1" ;;
    line) yes | tr -d '\n' ;;
    noise) printf '\033[2J' >&2; yes "a message" >&2 ;;
    silent) sleep 100 ;;
    crowd) yes 9 | tr -d '\n' ;;
    fails) searched; exit 1 ;;
esac
END
    chmod +x "$room/liar.sh"
}

# Runs ddfarm-machines on an example with these words: the tables have to be those of `table`. What it told is printed.
try() {
    local name="$1" given="$room/$2.pbn" wanted="$room/$2-tables.pbn" start=$SECONDS ended=0
    shift 2
    TMPDIR="$room/tmp" "$root/ddfarm-machines" "$@" <"$given" >"$room/got" 2>"$room/told" || ended=$?
    if ((ended != 0)) || ! cmp -s "$wanted" "$room/got"; then
        echo "$name: OTHER TABLES, status $ended"
        failed=1
    else
        echo "$name: the same tables, $((SECONDS - start)) s"
    fi
    sed 's/^/    /' "$room/told"
    expect_nothing_left "$name"
}

# Neither a file nor a process of a run may be there, at the latest after ten seconds.
expect_nothing_left() {
    local left turn
    for turn in {1..20}; do
        left="$(ls "$room/tmp"; pgrep -fa "$room/tmp|--evidence /dev/fd/3" || true)"
        [[ -n "$left" ]] || return 0
        sleep 0.5
    done
    echo "$1: LEFT: $left"
    failed=1
}

# A process and all that it started, and what those did.
family() {
    local child
    echo "$1"
    for child in $(pgrep -P "$1"); do family "$child"; done
}

# Waits until a search of the hosts has begun.
until_searching() {
    until pgrep -f "evidence /dev/fd/3" >/dev/null; do sleep 0.1; done
}

# Kills a host and all that it does, as soon as it searches.
kill_host() {
    until pgrep -f "evidence /dev/fd/3" | grep -qxF -f <(family "${daemons[$1]}"); do sleep 0.1; done
    kill -KILL $(family "${daemons[$1]}") 2>/dev/null || true
}

# Ends a run while hosts search, as a terminal does (`interrupt INT -`) or `kill` (`interrupt TERM`): nothing may be
# left.
interrupt() {
    local pid ended=0
    set -m
    TMPDIR="$room/tmp" "$root/ddfarm-machines" "$room/three" <"$room/many.pbn" >/dev/null 2>"$room/told" &
    pid=$!
    set +m
    until_searching
    kill "-$1" -- "${2:-}$pid" || failed=1
    wait "$pid" || ended=$?
    echo "ended by $1: status $ended"
    expect_nothing_left "ended by $1"
}

# The boards of an example, and 60 that are these with their hands and suits in other orders: four pieces.
make_boards() {
    local first order
    cp "$root/examples/club.pbn" "$root/examples/club-tables.pbn" "$room"
    for first in N E S W; do
        for order in '\1.\2.\3' '\2.\3.\1' '\3.\1.\2'; do
            sed -E -n 's/^(\[Deal ")[NESW]/\1'"$first"'/; T
                s/([^.: ]*)\.([^.]*)\.([^.]*)(\.[^ "]*)/'"$order"'\4/g; s/$/\n/p' "$room/club.pbn"
        done
    done >"$room/many.pbn"
    SECONDS=0
    "$root/ddfarm" table --solvers 2 <"$room/many.pbn" >"$room/many-tables.pbn"
    echo "table: $(grep -c Optimum "$room/many-tables.pbn") boards, $SECONDS s"
}

export PATH="$room/bin:$PATH"
make_boards
make_hosts
make_liar
try "three hosts" many "$room/three"
kill_host 1 &
try "three hosts, of which one is killed" many "$room/three"
try "three hosts, of which one is gone" many "$room/three"
interrupt INT -
interrupt TERM
for lie in tricks repeats foreign swapped bytes cut tables nothing rubbish endless line noise silent crowd fails; do
    echo "$lie" >"$room/lie"
    within=60
    [[ "$lie" != silent && "$lie" != noise ]] || within=3
    try "a host that lies: $lie" club --most 60 --within "$within" "$room/liar"
done
echo tricks >"$room/lie"
printf '1/three\nliar' >"$room/mixed"
try "a host that lies and one that doesn't" many --keep "$room/kept" "$room/mixed"
try "what was kept beside the lies" many --keep "$room/kept" "$room/mixed"
exit "$failed"
