# How a copy is installed under a folder, to run without toolchain and repository. This file is taken in by `soctest` at the top of the
# repository, after `running.bash`.
# shellcheck shell=bash

# copies files to a folder; those that are there may be in use, so that they are replaced and not written over
put() { mkdir -p -- "${@: -1}" && cp -r --remove-destination -- "$@"; }

# text for a manual page, in which a backslash, a hyphen, quotes and a dot at the head of a line mean something else
for_manual() { sed -e 's/\\/\\e/g' -e 's/-/\\-/g' -e "s/'/\\\\(aq/g" -e 's/`/\\(ga/g' -e 's/\^/\\(ha/g' -e 's/^\./\\\&./'; }

# the manual page, from the help that the copy under a folder gives
manual_page() {
    local word file
    printf '.TH SOCTEST 1 "" "soctest %s"\n.SH NAME\nsoctest \\- plans the test of a system chip over few wires\n' "$version"
    printf '.SH SYNOPSIS\n.nf\n'
    help_files | while read -r file; do echo "soctest $(head -n 1 "$file")"; done | for_manual
    printf '.fi\n.SH DESCRIPTION\n.nf\n'
    PATH=$1/bin:$PATH soctest help help | tail -n +5 | for_manual
    for word in $(helped_words); do
        [ "$word" != help ] || continue
        printf '.fi\n.SS %s\n.nf\n' "$(head -n 1 "$(help_file "$word")" | for_manual)"
        PATH=$1/bin:$PATH soctest help "$word" | tail -n +2 | for_manual
    done
    printf '.fi\n.SH FILES\n.nf\n'
    printf '%s\n' "$1"/share/soctest/{FORMATS.md,REFUSALS.md,examples} | for_manual
    printf '.fi\n'
}

# Puts the program, this script, help, examples, the forms of files, a manual page and a completion under a folder, so that they run
# without toolchain and repository. The mark makes a copy of the script.
install_under() {
    local to shared folder
    ! is_stale || give_up "the program isn't built, or a source is newer: $called build comes first"
    to=$(readlink -m -- "$1") shared=$to/share/soctest
    for folder in "$to/bin" "$shared"; do
        [ ! -e "$folder/crates.txt" ] || give_up "$folder is a clone of the repository, in which no copy can be put"
    done
    # (what an earlier install has put there and this one doesn't)
    [ ! -e "$shared/version" ] || rm -rf -- "$shared/help" "$shared/examples" "$shared/script"
    put "$top/soctest" "$to/bin" &&
        put "$help/." "$shared/help" &&
        put "$top"/examples/[!R]* "$shared/examples" &&
        put "$parts"/*.bash "$shared/script" &&
        put "$refusals" "$top/docs/FORMATS.md" "$program" "$shared" &&
        mv -f -- "$shared/soctest_program" "$shared/program" &&
        show_version >"$shared/version" &&
        echo "The soctest beside this file is an installed copy, whose other files are in $shared." >"$to/bin/.soctest-installed" &&
        mkdir -p -- "$to/share/man/man1" "$to/share/bash-completion/completions" &&
        manual_page "$to" >"$to/share/man/man1/soctest.1" &&
        cp -- "$parts/completion.bash" "$to/share/bash-completion/completions/soctest" || give_up "not all could be written under $to"
    say "installed: $to/bin/soctest"
}
