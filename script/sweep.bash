# Plans a chip over several numbers of wires: `sweep`. This file is taken in by `soctest` at the top of the repository, after `words.bash`
# and `running.bash`.
# shellcheck shell=bash

# The limits with another number of wires: that of the one word behind `Wires`, be it on another line. A word ends as it does for the program,
# by which a byte of value 0 ends none. All else stays, so that a line that is refused is that of the given file.
change_wires() {
    tr '\000' '\001' | LC_ALL=C awk -v wires="$1" '
        {
            rest = $0
            end = index(rest "#", "#")
            comment = substr(rest, end)
            rest = substr(rest, 1, end - 1)
            line = ""
            while (match(rest, /[^ \t\r:,;]+/)) {
                word = substr(rest, RSTART, RLENGTH)
                if (before == "wires") {
                    if (word !~ /^[0-9]+$/ || word + 0 < 1 || word + 0 > 256) bad = 1
                    count++
                    line = line substr(rest, 1, RSTART - 1) wires
                } else line = line substr(rest, 1, RSTART + RLENGTH - 1)
                before = tolower(word)
                rest = substr(rest, RSTART + RLENGTH)
            }
            print line rest comment
        }
        END { exit bad || count != 1 }'
}

# Plans, improves and proves over so many wires, and writes the line of what came of it.
sweep_one() {
    local wires=$1 room=$2/$1
    mkdir -- "$room" &&
        change_wires "$wires" <"$limits" >"$room/limits" &&
        "$program" plan "$soc" "$room/limits" >"$room/plan" &&
        "$program" improve "$soc" "$room/limits" "$room/plan" "$tries" 1 >"$room/improved" 2>/dev/null &&
        "$program" prove "$soc" "$room/limits" "$room/improved" 1000 >"$room/proof" 2>/dev/null &&
        "$program" report "$soc" "$room/limits" "$room/improved" >"$room/report" || return
    awk -v wires="$wires" '
        FILENAME ~ /proof$/ { if ($1 == "Bound") proved = $2; next }
        $1 == "cycles" { cycles = $2; claim = $4; kind = $5 }
        $1 == "wires" { busy = $6; all = $8 }
        END {
            if (proved > claim) { claim = proved; kind = "Proof" }
            printf "wires %d cycles %s claim %s %s busy %.1f %%\n", wires, cycles, claim, kind, all ? 100 * busy / all : 0
        }' "$room/proof" "$room/report" >"$room/line.new" && mv -- "$room/line.new" "$room/line"
}

# Draws cycles and claims over wires from the lines of a sweep, with the knee: the least number of wires whose plan takes at most 1 % more
# cycles than the shortest of all.
draw_sweep() {
    awk '
        { wires[NR] = $2; cycles[NR] = $4; claim[NR] = $6; if (NR == 1 || $4 < least) least = $4; if ($4 > most) most = $4 }
        function x(w) { return 70 + (wires[NR] > wires[1] ? 600 * (w - wires[1]) / (wires[NR] - wires[1]) : 300) }
        function y(c) { return 330 - (most ? 300 * c / most : 0) }
        function line(values, colour,    i, points) {
            for (i = 1; i <= NR; i++) points = points sprintf("%.1f,%.1f ", x(wires[i]), y(values[i]))
            printf "<polyline fill=\"none\" stroke=\"%s\" stroke-width=\"2\" points=\"%s\"/>\n", colour, points
            for (i = 1; i <= NR; i++)
                printf "<circle cx=\"%.1f\" cy=\"%.1f\" r=\"3\" fill=\"%s\"><title>%d wires: %s cycles</title></circle>\n", x(wires[i]),
                    y(values[i]), colour, wires[i], values[i]
        }
        END {
            print "<svg xmlns=\"http://www.w3.org/2000/svg\" viewBox=\"0 0 720 390\" font-family=\"sans-serif\" font-size=\"12\">"
            print "<rect width=\"720\" height=\"390\" fill=\"white\"/>"
            print "<path d=\"M70 20V330H690\" fill=\"none\" stroke=\"black\"/>"
            for (i = 1; i <= NR; i++) if (cycles[i] <= 1.01 * least) { knee = i; break }
            if (knee) {
                printf "<path d=\"M%.1f 20V330\" stroke=\"grey\" stroke-dasharray=\"4\"/>\n", x(wires[knee])
                at = x(wires[knee])
                if (at < 180) at = 180
                if (at > 560) at = 560
                printf "<text x=\"%.1f\" y=\"15\" text-anchor=\"middle\">%d wires are within 1 %% of the best</text>\n", at, wires[knee]
            }
            line(claim, "orange")
            line(cycles, "royalblue")
            printf "<text x=\"64\" y=\"%.1f\" text-anchor=\"end\">%s</text>\n", y(most) + 4, most
            print "<text x=\"64\" y=\"334\" text-anchor=\"end\">0</text>"
            for (i = 1; i <= NR; i += 1 + int((NR - 1) / 16)) printf "<text x=\"%.1f\" y=\"348\" text-anchor=\"middle\">%d</text>\n", x(wires[i]), wires[i]
            print "<text x=\"380\" y=\"368\" text-anchor=\"middle\">wires</text>"
            print "<text x=\"80\" y=\"384\" fill=\"royalblue\">cycles of the plan</text>\n<text x=\"220\" y=\"384\" fill=\"darkorange\">cycles that no good plan goes below</text>\n</svg>"
        }' "$1"
}

sweep() {
    local soc limits tries svg='' room count wires next done_one status=0
    local -a given=() lines=()
    while (($# > 0)); do
        if [ "$1" = --svg ] && (($# > 1)); then svg=$2 && shift; else given+=("$1"); fi
        shift
    done
    set -- "${given[@]}"
    read_words "$@"
    are_right "$@" && (($4 <= $5)) || { refuse_words sweep; return; }
    need_program sweep
    take_in filing
    [ -z "$svg" ] || is_free "$svg" || { say "nothing can be written to $svg" && return 5; }
    soc=$2 limits=$3 tries=${7:-10000} count=$(nproc 2>/dev/null || echo 1)
    room=$(mktemp -d) || give_up 'no folder can be made for the files'
    leavings+=("$room")
    trap 'exit 130' INT
    trap 'exit 143' TERM
    # (what is wrong with the files is said of the files that were given)
    run plan "$soc" "$limits" >"$room/plan" || { status=$? && write_out "$room/plan" && return "$status"; }
    change_wires "$4" <"$limits" >"$room/changed" || { say "$limits doesn't have the one number of wires that limits have" && return 1; }
    next=$4
    for ((wires = $4; wires <= $5; wires += $6)); do
        (($(jobs -rp | wc -l) < count)) || wait -n
        sweep_one "$wires" "$room" &
        workers+=($!)
        while ((next <= wires)) && [ -f "$room/$next/line" ]; do lines+=("$room/$next/line") && write_out "$room/$next/line" && ((next += $6)); done
    done
    for done_one in "${workers[@]}"; do wait "$done_one" || status=1; done
    workers=()
    ((status == 0)) || { say 'a plan failed' && return 70; }
    for ((; next <= $5; next += $6)); do lines+=("$room/$next/line") && write_out "$room/$next/line"; done
    [ -z "$svg" ] || { cat -- "${lines[@]}" >"$room/lines" && draw_sweep "$room/lines" >"$room/svg" && cp -- "$room/svg" "$svg"; }
}
