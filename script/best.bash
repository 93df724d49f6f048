# From a chip to the best plan: `best` plans, improves and proves in rounds. This file is taken in by `soctest` at the top of the
# repository, after `words.bash` and `running.bash`.
# shellcheck shell=bash

# What stands in the folder: the shortest plan so far, the proof of the greatest claim so far, the picture and the report of the plan, and
# five lines on all of it.
best_files=(plan proof svg report summary)
# the tries of the first round, and the nodes of the first proof
first_tries=1000 first_nodes=1000

# the file of a kind in the folder
kept() { echo "$folder/best.$1"; }

# has a file of the room take its place in the folder, whole
keep() { mv -f -- "$room/$1" "$(kept "$2")" || give_up "nothing can be written to $folder"; }

# the number behind a word at the head of a line of a plan
number_of() { awk -v word="$1" '$1 == word { print $2; exit }' "$2"; }

# what the program says of a plan or a proof where it takes it, and nothing where it doesn't
answer_of() { "$program" "$1" "$soc" "$limits" "$2" 2>/dev/null | grep -E '^(accepted|bound) ' | cut -d ' ' -f 2-; }

# Takes up what an earlier call has left: its plan and its proof, where the program still takes both, and how far it came.
take_up() {
    local kind
    for kind in "${best_files[@]}"; do
        [ ! -e "$(kept "$kind")" ] || [ -n "$(answer_of check "$(kept plan)")" ] || { refuse_folder "$kind" && return 1; }
    done
    if [ -e "$(kept proof)" ]; then
        claim=$(answer_of bound "$(kept proof)")
        [ -n "$claim" ] || { refuse_folder proof && return 1; }
    fi
    [ ! -e "$(kept summary)" ] ||
        read -r tries seeds < <(awk '$1 == "tries" { tries = $2 } $1 == "seeds" { seeds = $2 } END { print tries + 0, seeds + 0 }' "$(kept summary)")
}

refuse_folder() { say "$(kept "$1") is of another chip or of other limits, or of no earlier call: take another folder"; }

# what no good plan goes below: the claim of the proof, or the bound in the plan
least() { local bound && bound=$(number_of Bound "$(kept plan)") && echo $((bound > claim ? bound : claim)); }

# writes what is said, drawn and reported of the plan as it stands
show_best() {
    local shown
    local -a proof=()
    shown=$(least)
    [ ! -e "$(kept proof)" ] || proof=("$(kept proof)")
    "$program" picture "$soc" "$limits" "$(kept plan)" "${proof[@]}" >"$room/svg" && keep svg svg
    "$program" report "$soc" "$limits" "$(kept plan)" >"$room/report" && keep report report
    printf '%s\n' "chip $soc_name limits $limits_name" "cycles $cycles" "claim $shown" "tries $tries" "seeds $seeds" >"$room/summary"
    keep summary summary
    say "$cycles cycles, claim $shown, $(awk -v c="$cycles" -v b="$shown" 'BEGIN { printf "%.2f", c ? 100 * (c - b) / c : 0 }') % left, $SECONDS s"
}

# ---- proofs

# Begins a search for a proof of what the plan takes now, which goes on beside the rounds. What it shows bounds all plans, also those that are
# shorter than this one.
begin_proof() {
    [ -z "$prover" ] && { ((claim < cycles)) || [ ! -e "$(kept proof)" ]; } || return
    cp -- "$(kept plan)" "$room/proved"
    "$program" prove "$soc" "$limits" "$room/proved" "$nodes" >"$room/proving" 2>/dev/null &
    prover=$!
    workers+=("$prover")
}

# takes the proof that was found, where the search has ended
take_proof() {
    local shown
    [ -n "$prover" ] && ! kill -0 "$prover" 2>/dev/null || return
    prover=''
    ((nodes = nodes < 500000 ? 2 * nodes : 1000000))
    shown=$(answer_of bound "$room/proving")
    [ -n "$shown" ] && { ((shown > claim)) || [ ! -e "$(kept proof)" ]; } || return
    claim=$shown
    keep proving proof
}

# looks for one more proof, and waits for it
wait_for_proof() {
    begin_proof
    [ -z "$prover" ] || wait "$prover"
    take_proof
}

# ---- rounds

# Improves the plan from a seed for each processor, side by side, and keeps the shortest that comes of it. Where a proof that is found meanwhile
# shows that none is shorter, this is over.
improve_side_by_side() {
    local i found shortest=''
    local -a runs=() at_work=()
    for ((i = 0; i < processors; i++)); do
        "$program" improve "$soc" "$limits" "$(kept plan)" "$1" $((seeds + i + 1)) >"$room/improved.$i" 2>/dev/null &
        runs+=($!)
    done
    workers+=("${runs[@]}")
    ((seeds += processors, tries = $1 > tries ? $1 : tries))
    while
        mapfile -t at_work < <(jobs -rp | grep -vx "${prover:-none}")
        ((${#at_work[@]} > 0))
    do
        wait -n "${at_work[@]}" ${prover:+"$prover"}
        take_proof
        ((claim < cycles)) || kill -- "${at_work[@]}" 2>/dev/null
    done
    for ((i = 0; i < processors; i++)); do
        wait "${runs[i]}" 2>/dev/null || continue
        found=$(number_of Cycles "$room/improved.$i")
        ((found >= cycles)) || cycles=$found shortest=$i
    done
    workers=(${prover:+"$prover"})
    [ -z "$shortest" ] || keep "improved.$shortest" plan
}

best() {
    local soc limits soc_name limits_name folder room cycles claim=0 number left prover='' nodes=$first_nodes seeds=0 tries=0 processors status made=''
    read_words "$@"
    are_right "$@" && [ -n "$4" ] || { refuse_words best; return; }
    need_program best
    soc_name=$2 limits_name=$3 folder=$4 left=${5:-1000000} processors=$(nproc 2>/dev/null || echo 1)
    [ -d "$folder" ] || made=yes
    mkdir -p -- "$folder" && room=$(mktemp -d -- "$folder/.best.XXXXXX") || give_up "nothing can be written to $folder"
    leavings+=("$room")
    trap 'exit 130' INT
    trap 'exit 143' TERM
    # (a refusal names the files that were given; these are read once, so that they may change from here on)
    run plan "$soc_name" "$limits_name" >"$room/plan"
    status=$?
    ((status == 0)) || {
        write_out "$room/plan"
        rm -rf -- "$room"
        [ -z "$made" ] || rmdir -- "$folder"
        return "$status"
    }
    soc=$room/soc limits=$room/limits
    cp -- "$soc_name" "$soc" && cp -- "$limits_name" "$limits" || give_up "$soc_name and $limits_name have to be files, since they are read twice"
    take_up || return
    [ -e "$(kept plan)" ] || keep plan plan
    cycles=$(number_of Cycles "$(kept plan)")
    ((number = tries > 0 ? tries : first_tries))
    begin_proof
    while (($(least) < cycles && left > 0)); do
        ((number = number < left ? number : left))
        improve_side_by_side "$number"
        begin_proof
        show_best
        ((left -= number, number *= 2))
    done
    [ -z "$prover" ] || { wait "$prover" && take_proof; }
    wait_for_proof
    show_best
    "$program" check "$soc" "$limits" "$(kept plan)" && "$program" bound "$soc" "$limits" "$(kept proof)"
}
