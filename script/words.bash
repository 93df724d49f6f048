# The words of a command: what they are by its help, and what is said of words that are none. This file is taken in by `soctest` at
# the top of the repository, after `help.bash`.
# shellcheck shell=bash

# the least and the greatest number that a word of a command may be, and how that is said
range_of() {
    case $1 in
    WIRES | FROM | TO | STEP) echo 1 256 from 1 to 256 ;;
    MOST) echo 1 999999999999 from 1 to 999,999,999,999 ;;
    NODES) echo 1 1000000 from 1 to 1,000,000 ;;
    TRIES) echo 0 10000000 from 0 to 10,000,000 ;;
    SEED) echo 0 999999999999 from 0 to 999,999,999,999 ;;
    # (the program takes the word as a number, and then refuses more than 200 modules as it refuses a file)
    N) echo 0 999999999999 from 1 to 200 ;;
    esac
}

is_in_range() {
    local least most
    read -r least most _ < <(range_of "$1")
    [[ $2 =~ ^0*([0-9]{1,12})$ ]] && ((10#${BASH_REMATCH[1]} >= least && 10#${BASH_REMATCH[1]} <= most))
}

# what read_words sets: the words of a command by its help, those that are given for its files, and its first number that is out of range
form=() wrong=''
declare -gA files=()

read_words() {
    local i file
    file=$(help_file "$1") && read -ra form <"$file"
    # (the last word may be left out where the help has it in brackets)
    if [[ ${form[*]-} == *\[*\] ]]; then
        if (($# < ${#form[@]})); then unset 'form[-1]'; else form[-1]=${form[-1]:1:-1}; fi
    fi
    (($# == ${#form[@]})) || return
    for ((i = 1; i < $#; i++)); do
        case ${form[i]} in
        SOC | LIMITS | PLAN | DATA | LOG | TREE | PROGRAM | PROOF) files[${form[i]}]=${*:i+1:1} ;;
        DIR) ;;
        *) [ -n "$wrong" ] || is_in_range "${form[i]}" "${*:i+1:1}" || wrong=${form[i]} ;;
        esac
    done
}

# whether the words are those of a command, by what read_words has set
are_right() { (($# == ${#form[@]})) && [ -z "$wrong" ]; }

# how many letters have to be changed, put in or taken out to make one word of another
distance() {
    local -a row=()
    local i j corner above least
    for ((j = 0; j <= ${#2}; j++)); do row[j]=$j; done
    for ((i = 1; i <= ${#1}; i++)); do
        corner=${row[0]} row[0]=$i
        for ((j = 1; j <= ${#2}; j++)); do
            above=${row[j]} least=$corner
            [ "${1:i-1:1}" = "${2:j-1:1}" ] || ((least += 1))
            ((above < least)) && ((least = above + 1))
            ((row[j - 1] < least)) && ((least = row[j - 1] + 1))
            row[j]=$least corner=$above
        done
    done
    echo "${row[-1]}"
}

# the command that a word may be meant for: one that begins so, or else the nearest of which half of the letters are right
nearest() {
    local name found='' away least=99
    ((${#1} > 1 && ${#1} < 20)) || return
    for name in $(helped_words); do
        away=$(distance "$1" "$name")
        [[ $name == "$1"* ]] && away=0
        ((away < least && 2 * away <= ${#name})) && found=$name least=$away
    done
    echo "$found"
}

# says how the words of a command go, which of its numbers is out of its range, or which command a word may be meant for
show_words() {
    local file name
    if [ -n "$wrong" ]; then
        say "$wrong is a number $(range_of "$wrong" | cut -d ' ' -f 3-); $called help $1 says more"
    elif file=$(help_file "$1"); then
        say "its words are: $(head -n 1 "$file"); $called help $1 says more"
    else
        name=$(nearest "$1")
        say "there is no command ${1@Q}${name:+, perhaps $name is meant}; $called help lists all"
    fi
}

# answers words that aren't those of a command as the program answers them, which needs no proof first
refuse_words() {
    write_out <(echo 'bad words')
    show_words "$1"
    return 2
}
