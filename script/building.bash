# How the program is proved and built. This file is taken in by `soctest` at the top of the repository, after `running.bash`.
# shellcheck shell=bash

# copies the crates of the program to a folder of their own, without the edits that the prover has to refuse
copy_crates() {
    local name
    mkdir "$1/crates"
    while read -r name; do
        cp -r "$top/crates/$name" "$1/crates/" && rm -rf "$1/crates/$name"/{out,must-fail,more-edits} || return
        grep "^$name:" "$top/crates.txt" >>"$1/crates.txt"
    done < <(crates_below)
    cp "$top/HANDLES" "$1/"
}

# tells how far the proofs in a folder are: how many crates are done, kept ones too, and which are at work
tell_progress() {
    local room=$1 log=$2 count done_now was='' begun=$SECONDS now name
    count=$(ls "$room/crates" | wc -l)
    while sleep 2; do
        now=$(sed -nE 's/^rt: ([a-z_]+) (proved|is kept).*/\1/p' "$log" | sort -u)
        done_now=$(grep -c . <<<"$now")
        name=$(cd "$room/crates" && ls -d ./*/out 2>/dev/null | cut -d/ -f2 | grep -vxF "$now" | tr '\n' ' ')
        [ "$done_now $name" = "$was" ] && continue
        was="$done_now $name"
        [ -n "$name" ] || ((done_now == count)) || continue
        say "$done_now of $count crates are proved after $(((SECONDS - begun) / 60)) min $(((SECONDS - begun) % 60)) s; at work: ${name:-the run of the program}"
    done
}

# How many crates are proved side by side: one a processor, if there are 3.5 GB of memory for each. Most proofs take less than 3 GB.
# Left to itself, the toolchain counts on more for a large crate, which then waits for all others.
proofs_at_once() {
    local count held
    count=$(nproc 2>/dev/null) || count=1
    held=$(awk '/^MemAvailable:/ { print int($2 / 3500000) }' /proc/meminfo 2>/dev/null)
    [ -z "$held" ] || ((held >= count)) || count=$held
    echo $((count > 1 ? count : 1))
}

# Proves the crates in a folder and builds their program, by the gate's own command, which begins with the crates that have the
# longest chain of others behind them. Told how many crates to prove side by side, it has one processor for each. At first there
# are just two to prove, for which all others wait. So each of these is also proved by a run of its own, which shares out all
# processors. The main run takes what they prove: it waits where another run is at the same crate, and these are there before it,
# since they have less to look through.
prove_all() {
    cd "$1" || return
    if [ -z "${RT_JOBS-}" ]; then
        rt ci outside >/dev/null 2>&1 &
        rt ci plan_model >/dev/null 2>&1 &
    fi
    RT_JOBS=${RT_JOBS:-$(proofs_at_once)} rt ci
    local status=$?
    wait
    return "$status"
}

# Proves the crates of the program in a copy, and builds it.
build() {
    local folder=$top/crates/soctest_program/out log room turn teller
    { mkdir -p "$folder" && exec {turn}>"$folder/turn"; } || give_up "nothing can be written to $folder"
    flock "$turn"
    # (another run may have built it by now)
    is_stale || return 0
    room=$(mktemp -d) && mkdir "$room/.git" && log=$folder/proofs.log && copy_crates "$room" && : >"$log" || give_up "the sources can't be copied"
    tell_progress "$room" "$log" &
    teller=$!
    (prove_all "$room") >"$log" 2>&1 </dev/null
    kill "$teller" 2>/dev/null
    wait "$teller" 2>/dev/null
    if grep -qE '^[0-9]+ passed, 0 failed$' "$log" && mv "$room/crates/soctest_program/out/soctest_program" "$folder/built"; then
        mv "$folder/built" "$program"
    fi
    rm -rf "$room"
    exec {turn}>&-
    is_stale || return 0
    grep -E 'error|NOT PROVED' "$log" | head -n 20 >&2
    give_up "the program was not built; all that was said is in $log"
}
