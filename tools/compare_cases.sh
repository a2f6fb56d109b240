#!/usr/bin/env bash
# Compares a program with all cases of crates/corpus/data (cases/README.md tells what they are), and with the outputs that stand
# beside the examples:
#     tools/compare_cases.sh [PROGRAM]
# PROGRAM is the built program; without it $GRIDLAY_PROGRAM, else the one that the gate leaves in crates/gridlay/out.
# $GRIDLAY_WORDS, where it is set, are the words whose cases are compared: another program may have less of them.
# It tells how many runs agree in each folder and profile, and of each that does not the first line that differs.
# A case that crates/corpus/data/later.txt names wants a word that the program does not know yet; its runs are counted apart.
# The status is 0 where all other runs agree, 1 where one does not, 2 where there is nothing to compare.
# It needs bash, awk, cmp and timeout, and no kit.
set -u
export LC_ALL=C

# shellcheck source=program.sh
. "$(dirname -- "$(readlink -f -- "${BASH_SOURCE[0]}")")/program.sh"
take_program "$@"
seconds=60

# The cases that wait, FOLDER/NAME with all of its runs or FOLDER/NAME.write with that one alone.
declare -A waits=()
if [ -e "$data/later.txt" ]; then
    while read -r name _; do
        case $name in '' | '#'*) ;; *) waits[$name]=1 ;; esac
    done <"$data/later.txt"
fi

# The first line of one file that is not the same in the other.
first_difference() {
    awk -v wanted="$2" '
        function show(text, there) { return there ? "\"" substr(text, 1, 100) "\"" : "the end" }
        {
            there = (getline line < wanted) > 0
            if (!there || line != $0) { print "    line " NR " is " show($0, 1) ", wanted is " show(line, there); found = 1; exit }
        }
        END {
            if (found) exit
            if ((getline line < wanted) > 0) print "    line " NR + 1 " is the end, wanted is " show(line, 1)
            else print "    the last line feed differs"
        }' "$1"
}

# The first line of the second file that does not come in the first one behind those before it; nothing where all come.
first_missing() {
    awk -v wanted="$2" '
        BEGIN { more = (getline line < wanted) > 0 }
        more && $0 == line { more = (getline line < wanted) > 0 }
        END { if (more) print "    no line \"" substr(line, 1, 100) "\" behind those before it" }' "$1"
}

declare -A agreed=() all=()
order=() total=0 good=0 apart=0 early=()

# compare KEY GROUP INPUT OUTPUT-OR-SOME STATUS-FILE WORD..: one run, counted in its group.
compare() {
    local key=$1 group=$2 input=$3 wanted=$4 wanted_status got_status=0 why=
    wanted_status=$(<"$5") || stop "$5 cannot be read"
    shift 5
    timeout "$seconds" "$program" "$@" <"$input" >"$room/out" 2>"$room/err" || got_status=$?
    case $wanted in
        *.some) why=$(first_missing "$room/out" "$wanted") ;;
        *) cmp -s "$room/out" "$wanted" || why=$(first_difference "$room/out" "$wanted") ;;
    esac
    if [ "$got_status" != "$wanted_status" ]; then
        why="    the status is $got_status, wanted is $wanted_status${why:+$'\n'}$why"
    fi
    if [ -n "${waits[$key]-}" ] || [ -n "${waits[${key%.write}]-}" ]; then
        apart=$((apart + 1))
        [ -n "$why" ] || early+=("$key")
        return
    fi
    [ -n "${all[$group]+there}" ] || order+=("$group")
    total=$((total + 1))
    all[$group]=$((${all[$group]-0} + 1))
    if [ -z "$why" ]; then
        good=$((good + 1))
        agreed[$group]=$((${agreed[$group]-0} + 1))
    else
        printf '%s differs:\n%s\n' "$key" "$why"
    fi
}

# Whether the cases of a word are compared.
is_wanted() {
    case " ${GRIDLAY_WORDS-$1} " in *" $1 "*) ;; *) return 1 ;; esac
}

# compare_folder NAME FOLDER ENDING: all inputs of a folder; a group is a folder and what stands before the number of a name.
compare_folder() {
    local folder=$1 place=$2 ending=$3 input base name group wanted words
    compgen -G "$place/*$ending" >/dev/null || stop "$place holds no case"
    for input in "$place"/*"$ending"; do
        base=${input%"$ending"}
        name=${base##*/}
        case $folder in
            rows | own | examples) group=$folder ;;
            *) group="$folder ${name%-*}" ;;
        esac
        wanted=$base.out
        [ -e "$wanted" ] || wanted=$base.some
        [ -e "$wanted" ] || stop "$input has no output beside it"
        words=layout
        [ ! -e "$base.words" ] || words=$(<"$base.words")
        read -ra words <<<"$words"
        ! is_wanted "${words[0]-}" || compare "$folder/$name" "$group" "$input" "$wanted" "$base.status" ${words[@]+"${words[@]}"}
        if [ -e "$base.write" ] && is_wanted write; then
            compare "$folder/$name.write" "$folder write" "$input" "$base.write" "$base.write-status" write
        fi
    done
}

folders=(small usual late rows)
[ ! -d "$data/own" ] || folders+=(own)
for folder in "${folders[@]}"; do
    compare_folder "$folder" "$data/$folder" .in
done
compare_folder examples "$top/examples" .gridlay

for group in ${order[@]+"${order[@]}"}; do
    printf '%-16s %3d of %3d agree\n' "$group" "${agreed[$group]-0}" "${all[$group]}"
done
if [ "$apart" -gt 0 ]; then
    printf 'not yet: %d runs of cases that crates/corpus/data/later.txt names, since the program has not all of their words\n' "$apart"
fi
if [ "${#early[@]}" -gt 0 ]; then
    printf 'of these agree already: %s\n' "${early[*]}"
fi
status=0
for name in "${!waits[@]}"; do
    [ -e "$data/${name%.write}.in" ] || {
        printf 'later.txt names %s, and there is no such case\n' "$name"
        status=1
    }
done
# The examples stand twice, where people find them and where a crate can read them.
for file in "$data"/examples/*; do
    name=${file##*/}
    cmp -s -- "$file" "$top/examples/${name/%.in/.gridlay}" || {
        printf 'crates/corpus/data/examples/%s is not as examples/%s\n' "$name" "${name/%.in/.gridlay}"
        status=1
    }
done
printf 'in all %d of %d agree\n' "$good" "$total"
[ "$good" = "$total" ] || status=1
exit "$status"
