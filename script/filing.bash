# An answer to a file (--to FILE). This file is taken in by `soctest` at the top of the repository, which has `to`, `place`, `new` and
# `standard`.
# shellcheck shell=bash

# whether an answer may take this place: there is no file yet, or a plain one that may be written, and no terminal, pipe or folder
is_free() { [ -n "$1" ] && { [ ! -e "$1" ] || { [ -f "$1" ] && [ -w "$1" ]; }; }; }

# has all that is written from here on go to a new file beside the one that is named
begin_file() {
    place=$(readlink -f -- "$1")
    ! is_free "$place" || new=$(mktemp -- "$(dirname -- "$place")/.soctest.XXXXXX" 2>/dev/null)
    [ -n "$new" ] || { say "nothing can be written to $1" && exit 5; }
    leavings+=("$new")
    if [ -e "$place" ]; then
        cp --attributes-only --preserve=mode,ownership -- "$place" "$new"
    else
        chmod '=rw' -- "$new"
    fi
    # (there may be no standard output)
    { exec {standard}>&1; } 2>/dev/null || standard=''
    exec >"$new"
}

# At status 0 the new file takes the place of the one that is named. Else that one is as it was, and what the files or the words are
# refused by goes where it goes without a file.
finish_file() {
    exec >&-
    [ -z "$standard" ] || exec >&"$standard"
    case $1 in
    0) mv -f -- "$new" "$place" || return 5 ;;
    [1-4]) write_out "$new" ;;
    5) say "the answer can't be written beside $to, which is as it was" ;;
    esac
    return "$1"
}
