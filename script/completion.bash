# Completes the words of soctest in bash: commands, and behind them files by the endings that their places ask for. It reads the help
# beside it, in an installed copy or in a clone.
# shellcheck shell=bash

_soctest_help=$(dirname "$(readlink -f "${BASH_SOURCE[0]}")")
if [ -d "$_soctest_help/../../soctest/help" ]; then
    _soctest_help=$_soctest_help/../../soctest/help
else
    _soctest_help=$_soctest_help/../docs/help
fi

# the words that a command may begin with
_soctest_words() {
    local file
    for file in "$_soctest_help"/*.txt "$_soctest_help"/script/*.txt; do
        [[ $file == */commands.txt ]] || head -n 1 "$file" | cut -d ' ' -f 1
    done
}

# files whose names end so, or all where none does, and folders on the way to them
_soctest_files() {
    local ending
    COMPREPLY=()
    compopt -o filenames 2>/dev/null
    for ending; do mapfile -t -O "${#COMPREPLY[@]}" COMPREPLY < <(compgen -f -X "!*$ending" -- "$word"); done
    mapfile -t -O "${#COMPREPLY[@]}" COMPREPLY < <(compgen -d -- "$word")
    ((${#COMPREPLY[@]})) || mapfile -t COMPREPLY < <(compgen -f -- "$word")
}

_soctest() {
    local word=${COMP_WORDS[COMP_CWORD]} at=1 form
    COMPREPLY=()
    # the command stands behind --to FILE and --unproved
    while ((at < COMP_CWORD)); do
        case ${COMP_WORDS[at]} in
        --unproved) ((at += 1)) ;;
        --to)
            ((at + 1 == COMP_CWORD)) && _soctest_files '' && return
            ((at += 2))
            ;;
        *) break ;;
        esac
    done
    if ((at == COMP_CWORD)); then
        mapfile -t COMPREPLY < <(compgen -W "$(_soctest_words)" -- "$word")
        return
    fi
    case ${COMP_WORDS[at]} in
    help)
        mapfile -t COMPREPLY < <(compgen -W "$(_soctest_words) refused" -- "$word")
        return
        ;;
    install) form=(install DIR) ;;
    *) read -ra form <"$_soctest_help/${COMP_WORDS[at]}.txt" || return ;;
    esac 2>/dev/null
    case ${form[COMP_CWORD - at]-} in
    SOC) _soctest_files .soc ;;
    LIMITS) _soctest_files .lim ;;
    PLAN) _soctest_files .plan ;;
    DATA) _soctest_files .data ;;
    LOG) _soctest_files .log ;;
    TREE) _soctest_files .tree ;;
    PROGRAM) _soctest_files .prog ;;
    PROOF) _soctest_files .proof ;;
    DIR) _soctest_files / ;;
    esac
}
complete -F _soctest soctest
