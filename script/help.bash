# Help on commands, from files that need no program, and the version. This file is taken in by `soctest` at the top of the repository.
# shellcheck shell=bash

# writes files that are read by a user, in which the script has the name that it was called by, and files are where they are
show_text() {
    local text
    text=$(cat -- "$@")
    text=${text//'./soctest'/"$called"}
    [ -z "$installed" ] || text=${text//' examples/'/" $shared/examples/"} text=${text//'docs/FORMATS.md'/"$shared/FORMATS.md"}
    write_out <(printf '%s\n' "$text")
}

# the commands: each has a file of help, whose first line has its words
is_command() { [[ $1 =~ ^[a-z]+$ && $1 != commands && -f $help/$1.txt ]]; }

# the files of help on all commands, and then on what the script does itself
help_files() {
    local file
    for file in "$help"/*.txt "$help"/script/*.txt; do
        [ "$file" = "$help/commands.txt" ] || echo "$file"
    done
}

# all words that there is help on
helped_words() {
    local file
    help_files | while read -r file; do head -n 1 "$file" | cut -d ' ' -f 1; done
}

# the file of help on a word: a command, or what the script does itself
help_file() {
    local file=$help/script/${1#--}.txt
    if is_command "$1"; then
        echo "$help/$1.txt"
    else
        [[ $1 =~ ^(--)?[a-z]+$ && -f $file && $(head -n 1 "$file")\  == "$1 "* ]] && echo "$file"
    fi
}

# what the script answers, the statuses, and the words of each command with a line on it
all_help() {
    local file
    cat "$help/commands.txt" <(echo) "$help/script/help.txt"
    help_files | while read -r file; do
        [ "$file" = "$help/script/help.txt" ] || { echo && head -n 3 "$file"; }
    done
}

# help on all, on a word, on all refusals, or on one of them
show_help() {
    local file word=${1-}
    case $word in
    '' | -h | --help) show_text <(all_help) ;;
    refused)
        shift
        take_in refusals
        show_refusals "$@"
        ;;
    *)
        [ "$word" != -V ] || word=--version
        if ! file=$(help_file "$word"); then
            show_words "$word"
            return 2
        fi
        show_text "$file"
        ;;
    esac
}

# the version, the commit, and the line of the toolchain that proves it: the one that is there, or else that of the README
show_version() {
    if [ -n "$installed" ]; then
        cat "$shared/version"
        return
    fi
    echo "soctest $version"
    echo "commit $(git -C "$top" rev-parse HEAD 2>/dev/null || echo unknown)$([ -z "$(git -C "$top" status --porcelain 2>/dev/null)" ] || echo ', changed')"
    rt version 2>/dev/null || grep -oE -m 1 'rattle-kit-[0-9a-z]+ logic [0-9a-f]+' "$top/README.md"
}
