# What is said of an answer on standard error. This file is taken in by `soctest` at the top of the repository, after `words.bash` and
# `refusals.bash`.
# shellcheck shell=bash

# the words that a text of each form begins with, and what it is
form_by_word() {
    case $1 in
    Limits) echo 'a file of limits' ;;
    Plan) echo 'a plan' ;;
    Data) echo 'test data' ;;
    Log) echo 'a fail log' ;;
    Tree) echo 'a width tree' ;;
    Program) echo 'a program of shifts' ;;
    Proof) echo 'a proof by cases on buses' ;;
    SocName | TotalModules | Options | Module) echo 'a chip' ;;
    esac
}

# says which form a refused file seems to be in, where that is another one than the words ask for
show_form() {
    local seems wanted
    seems=$(form_by_word "$(sed 's/#.*//' <"$2" | tr -s ' \t\r\000' '\n' | grep -am 1 .)")
    wanted=$(form_by_word "$([ "$1" = SOC ] && echo Module || echo "${1:0:1}$(tr A-Z a-z <<<"${1:1}")")")
    [ -z "$seems" ] || [ "$seems" = "$wanted" ] || echo "$2: this seems to be $seems, where $wanted is wanted"
}

# adds the line of a file that was refused, in the form that editors understand, where the answer names one
show_refused_line() {
    local file line text name
    [[ $1 =~ ^refused\ ([a-z]+)\ (unknown\ test\ )?line\ ([0-9]+)$ ]] || return
    name=${BASH_REMATCH[1]^^} line=${BASH_REMATCH[3]}
    file=${files[$name]}
    # (what came through a pipe can't be read again)
    [ -f "$file" ] || return
    # (a byte that a terminal would obey is shown as a question mark)
    text=$(sed -n "$line{p;q}" <"$file" | head -c 200 | tr -d '\r' | tr '\000-\010\013-\037\177' '?')
    printf '%s:%s: %s\n' "$file" "$line" "${text:-(the file ends here)}"
    show_form "$name" "$file"
}

# names the help on a refusal, on all of them where the answer isn't known
name_help() {
    local -a answer=()
    local words
    read -ra answer <<<"$1"
    words=$(refusal_words "${answer[@]}")
    [[ $words != 'plan F'* ]] || words=${words#plan }
    say "$called help refused${words:+ $words} says what to look at"
}

# names the first file that can't be read, and says why where that can be seen
show_unread_file() {
    local name file why
    for name in "${form[@]}"; do
        [ -v "files[$name]" ] || continue
        file=${files[$name]} why=
        [ -r "$file" ] || why='it may not be read'
        [ ! -d "$file" ] || why='a folder'
        [ -e "$file" ] || why='no such file'
        [ -z "$why" ] || break
    done
    [ -z "$why" ] || printf '%s: %s\n' "$file" "$why"
}

# whether each file can be read once more: what came through a pipe can't
are_kept() {
    local file
    for file in "${files[@]}"; do
        [ ! -e "$file" ] || [ -f "$file" ] || return
    done
}

# says where no test of the chip is live, since an answer over such a chip looks like any other. In a file that is read as a chip the word
# Patterns stands before a number of patterns and nowhere else.
show_empty_chip() {
    local file=${files[SOC]-}
    [ -f "$file" ] || return
    LC_ALL=C sed 's/#.*//' <"$file" | tr -s ' \t\r\n:,;' '\n' | grep -aix -A 1 patterns | grep -q '[1-9]' ||
        say "no test in $file has a pattern, so that there is nothing to plan"
}

# says more of an answer of this status to a command, and returns the status
explain() {
    case $1 in
    0) show_empty_chip ;;
    1)
        show_refused_line "$3" >&2
        # (a number that the program takes as a word and then refuses)
        if [[ $3 == 'refused sample '* ]]; then wrong=N show_words sample; else name_help "$3"; fi
        ;;
    2) show_words "$2" ;;
    3) show_unread_file >&2 ;;
    esac
    return "$1"
}
