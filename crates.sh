# shellcheck shell=bash disable=SC2154,SC2046,SC2207
# Proves the libraries that a crate stands on. ddfarm and ddfarm-library source this, and set before:
#   root   the checkout
#   name   the script, which is the first word of each line that it prints
#   crate  the crate that is built in the end: a program or a static library
folder="$root/crates/$crate"
log="$folder/out/$crate.log"
copies="$folder/out/copies"
# Its time is that of the last build's beginning.
stamp="$folder/out/$crate.built"

# The crate, and all that it stands on, in the order in which they are proved: first those above which the most lines of
# source stand in a row, its own too. So each comes after those that it stands on. crates.txt has it the same way. A
# second word before the colon is the kind.
crates_below() {
    (cd "$root" && find crates/*/src -name '*.rt' -exec wc -l {} + && tac crates.txt) | awk -F ': *' -v crate="$crate" '
        BEGIN { above[crate] = 1 }
        split($0, file, "crates/") == 2 { lines[substr(file[2], 1, index(file[2], "/") - 1)] += file[1]; next }
        { sub(/ .*/, "", $1) }
        $1 in above {
            row = above[$1] + lines[$1] + 1
            print row, $1
            count = split($2, below, " ")
            for (i = 1; i <= count; i++) if (above[below[i]] < row) above[below[i]] = row
        }' | sort -s -rn -k 1,1 | cut -d ' ' -f 2
}

# Whether no source of these crates is newer than the last build.
is_current() {
    [[ -e "$stamp" ]] || return 1
    local newer
    newer="$(find "$root/crates.txt" $(crates_below | sed "s|^|$root/crates/|") -name out -prune -o \
        -name must-fail -prune -o -type f ! -name '*.md' -newer "$stamp" -print -quit)"
    [[ -z "$newer" ]]
}

# What this machine's processor is: x86-64-v3 where it has all of that, which takes three to eight hundredths off a
# search, else x86-64-v2. On a processor that lacks something of its level the program ends with 127 as it starts.
cpu_of_machine() {
    local flags flag
    flags=" $(grep -m 1 '^flags' /proc/cpuinfo || true) "
    for flag in abm avx avx2 bmi1 bmi2 f16c fma movbe xsave; do
        [[ "$flags" == *" $flag "* ]] || { echo x86-64-v2; return; }
    done
    echo x86-64-v3
}

# How many jobs prove crates: one a processor, where each has 3 GB of memory.
all_jobs() {
    local room most
    room="$(awk '/^MemAvailable:/ { print int($2 / 3000000) }' /proc/meminfo)"
    most="$(nproc)"
    echo $((room < 1 ? 1 : room < most ? room : most))
}

# Ends with what the build said, of which the end is told.
fail() {
    jobs -p | xargs -r kill 2>/dev/null || true
    tail -n 30 "$log" >&2
    echo "$name: the build failed; all that it said is in $log" >&2
    exit 1
}

# Of these crates, in their order, those that stand on none of them and on none of the others.
ready_among() {
    awk -F ': *' -v names="$1" -v others="$2" '
        BEGIN {
            count = split(names, name, " ")
            split(names " " others, each, " ")
            for (i in each) is_open[each[i]] = 1
        }
        { sub(/ .*/, "", $1); split($2, below, " "); for (i in below) if (below[i] in is_open) waits[$1] = 1 }
        END { for (i = 1; i <= count; i++) if (!(name[i] in waits)) print name[i] }' "$root/crates.txt"
}

# Makes or renews copies of the sources, without what proofs left there. No two commands of the kit work in one checkout
# at a time.
make_copies() {
    local number copy
    for ((number = 0; number < $1; number++)); do
        copy="$copies/$number"
        mkdir -p "$copy/crates"
        find "$copy/crates" -mindepth 2 -maxdepth 2 ! -name out -exec rm -rf {} +
        tar -C "$root" --exclude=out -cf - crates crates.txt HANDLES | tar -C "$copy" -xf -
    done
}

# Gives a library that was proved in one copy to the others and to this checkout, where they have another or none: each
# would prove it anew.
share() {
    local library="crates/$1/out/rlib" from="$copies/$2" to
    for to in "$copies"/* "$root"; do
        ! cmp -s "$from/$library/stamp" "$to/$library/stamp" || continue
        mkdir -p "$to/${library%/rlib}"
        rm -rf "${to:?}/$library"
        cp -al "$from/$library" "$to/$library"
    done
}

# Proves the libraries, each in a copy, as many at a time as there are jobs. Most wait for one another, in a long row.
# So the first in the order of all that are being proved has half of the jobs, and each other has one.
prove_libraries() {
    local waiting ready library jobs all pid count number=0 idle first
    local -A library_of=() copy_of=() place_of=()
    waiting=" $(crates_below | grep -vx "$crate" | tr '\n' ' ')"
    for library in $waiting; do place_of[$library]=${#place_of[@]}; done
    count=${#place_of[@]}
    all="$(all_jobs)"
    idle=($(seq 0 $((all - 1))))
    make_copies "${#idle[@]}"
    while ((number < count)); do
        ready=($(ready_among "$waiting" "${library_of[*]}"))
        while ((${#ready[@]} > 0 && ${#idle[@]} > 0)); do
            library="${ready[0]}"
            first="$library"
            for pid in "${!library_of[@]}"; do
                ((place_of[${library_of[$pid]}] > place_of[$first])) || first="${library_of[$pid]}"
            done
            jobs=1
            [[ "$first" != "$library" ]] || jobs=$(((all + 1) / 2))
            (cd "$copies/${idle[0]}/crates/$library" && exec rt lib --jobs "$jobs" </dev/null >>"$log" 2>&1) &
            library_of[$!]="$library"
            copy_of[$!]="${idle[0]}"
            idle=("${idle[@]:1}")
            waiting="${waiting/ $library / }"
            ready=("${ready[@]:1}")
        done
        wait -n -p pid || fail
        number=$((number + 1))
        share "${library_of[$pid]}" "${copy_of[$pid]}"
        echo "$name: proved ${library_of[$pid]}, $number of $count libraries" >&2
        idle+=("${copy_of[$pid]}")
        unset "library_of[$pid]" "copy_of[$pid]"
    done
}

# Waits until no other terminal builds here. One lock serves all that is built, since a build leaves libraries in the
# checkout.
wait_for_others() {
    local file="$root/crates/ddfarm/out/ddfarm.lock"
    mkdir -p "$folder/out" "${file%/*}"
    exec {lock}>"$file"
    flock -n "$lock" && return
    echo "$name: another terminal is building $1; this one waits for it" >&2
    flock "$lock"
}

# Proves the libraries, then runs the command in the crate's folder. At the end the stamp says when it began.
build_crate() {
    touch "$stamp.new"
    : >"$log"
    prove_libraries
    (cd "$folder" && exec "$@" </dev/null >>"$log" 2>&1) || fail
    rm -rf "$copies"
    mv "$stamp.new" "$stamp"
}
