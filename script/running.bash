# Runs the program, which is proved and built first where it has to be, or a build without proofs. This file is taken in by `soctest` at
# the top of the repository.
# shellcheck shell=bash

# what needs the sources
needs_clone() { [ -z "$installed" ] || give_up "$1 needs a clone of the repository, and this is an installed copy"; }

# what needs the sources and the toolchain
needs_toolchain() {
    needs_clone "$1"
    type rt >/dev/null 2>&1 || give_up "$1 needs the toolchain, and its command rt isn't on the path (see README.md)"
}

# the crate of the program and all that it stands on
crates_below() {
    awk -F: '
        function visit(name,    names, count, i) {
            if (!(name in uses) || seen[name]++) return
            print name
            count = split(uses[name], names, " ")
            for (i = 1; i <= count; i++) visit(names[i])
        }
        /^[a-z]/ { uses[$1] = $2 }
        END { visit("soctest_program") }' "$top/crates.txt"
}

# whether the program has to be built: it isn't there, or a source of it is newer
is_stale() {
    local crates
    [ -x "$program" ] || return 0
    [ -z "$installed" ] || return 1
    mapfile -t crates < <(crates_below)
    [ -n "$(cd "$top/crates" && find ../crates.txt "${crates[@]}" -name out -prune -o \
        \( -name '*.rt' -o -name '*.antt' -o -name crates.txt \) -newer "$program" -print -quit)" ]
}

# proves and builds the program where that has to be done first
need_program() {
    is_stale || return 0
    say "the program is proved and built first; $called --unproved $1 .. answers within two minutes, without a proof"
    needs_toolchain 'the program has to be proved and built first, which'
    take_in building
    build
}

# runs a command, says more of its answer, and returns the program's status
run() {
    local -a tied=()
    local status answer=''
    read_words "$@"
    if is_stale; then
        are_right "$@" || { refuse_words "$1"; return; }
        need_program "$1"
    fi
    # (the program ends with this script, also where that is killed)
    setpriv --pdeathsig KILL true 2>/dev/null && tied=(setpriv --pdeathsig KILL)
    "${tied[@]}" "$program" "$@"
    status=$?
    ((status != 126 && status != 127)) || give_up "the program can't be run: $program"
    take_in refusals explaining
    # (the answer went straight to the output, so the program is asked once more, which is quick: a refusal comes before any long work)
    ((status != 1)) || ! are_kept || answer=$("$program" "$@" 2>/dev/null)
    explain "$status" "$1" "$answer"
}

# Runs a command by a build that isn't proved, which is made for this call alone. Whether the program ended, and how, is reported by
# the last line that the toolchain says.
run_unproved() {
    local -a handed=() plain=()
    local room told status
    needs_toolchain --unproved
    read_words "$@"
    are_right "$@" || { refuse_words "$1"; return; }
    room=$(mktemp -d) || give_up 'no folder can be made for the files'
    leavings+=("$room")
    say "this answer comes from a build that is NOT proved, made for this one call in a minute or two; $called build makes the proved program, once"
    hand_over "$@"
    (cd "$top/crates/soctest_program" && rt try --seconds 300 "${handed[@]}" -- "${plain[@]}") >"$room/out" 2>"$room/told" </dev/null
    told=$(tail -n 1 "$room/told")
    if [[ ! $told =~ ^run=ended\ status=([0-9]+)\ .*proved=no$ ]]; then
        cat "$room/told" >&2
        give_up "there is no answer without a proof: the toolchain says why; $called build makes the proved program"
    fi
    status=${BASH_REMATCH[1]}
    write_out "$room/out"
    grep -vE '^(checked: |run=|rt: )' "$room/told" >&2
    take_in refusals explaining
    explain "$status" "$1" "$(head -n 1 "$room/out")"
}

# sets handed, how the files of a command are handed over under plain names, and plain, its words with these names
hand_over() {
    local i name
    plain=("$1")
    for ((i = 1; i < ${#form[@]}; i++)); do
        name=${form[i]}
        if [ -v "files[$name]" ]; then
            # (a pipe is read here, no further than the program reads; what can't be read is missing there too, so that the program says so)
            { head -c 33554433 <"${files[$name]}" >"$room/$name"; } 2>/dev/null && handed+=(--data "$name=$room/$name")
            plain+=("$name")
        else
            plain+=("${*:i+1:1}")
        fi
    done
}
