# Help on refusals, from their page. This file is taken in by `soctest` at the top of the repository, after `help.bash`.
# shellcheck shell=bash

# The words by which help finds a refusal: those before its first number or the first name of a test. A rule belongs to the plan.
refusal_words() {
    local word found=''
    for word; do
        case $word in
        refused) ;;
        F[0-9]*) found=" plan $word" ;;
        *[0-9]*) break ;;
        *) found+=" $word" ;;
        esac
    done
    echo "${found# }"
}

# the items of the page of refusals that have a form with these words at its head
refusals_of() {
    awk -v words="$1" '
        function end_item(    head) {
            head = item
            gsub(/\n +/, " ", head)
            sub(/`: .*/, "` ", head)
            gsub(/`refused /, "`", head)
            gsub(/`/, " ` ", head)
            if (index(head, " ` " words " ")) printf "%s", item
            item = ""
        }
        /^- `/ { end_item(); item = $0 "\n"; next }
        item != "" && /^  / { item = item $0 "\n"; next }
        { end_item() }
        END { end_item() }' "$refusals"
}

# help on the refusals that begin with these words, or on all
show_refusals() {
    local words text
    words=$(refusal_words "$@")
    if [ $# -eq 0 ]; then
        show_text "$refusals"
        return
    fi
    text=$(refusals_of "$words")
    if [ -z "$words" ] || [ -z "$text" ]; then
        say "there is no refusal ${*@Q}; $called help refused has all"
        return 2
    fi
    show_text <(echo "$text")
}
