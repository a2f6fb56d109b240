# shellcheck shell=bash
# What is wrong with a value that has none of the forms of its property. (explain.sh reads this file, and tells what its variables
# are.)
# shellcheck disable=SC2154

# The causes of a bad value, each of them true of every value that it finds, then what the property takes.
explain_value() {
    if [ "${#value}" -gt 2000 ]; then
        say_so "\`$property\` takes ${form_text[${form:-none}]-another value}"
        return
    fi
    split "$value"
    value_with_strange_words || value_with_bad_number || value_with_keyword_in_capitals || value_of_bad_count ||
        value_of_bad_line || value_of_bad_areas || value_of_bad_tracks ||
        say_so "\`$property\` takes ${form_text[${form:-none}]-another value}"
}

value_with_strange_words() {
    local i word
    for i in "${!words[@]}"; do
        word=${words[i]}
        case $word in
            !important | *!important | !)
                say_so "there is no \`!important\`: leave it out" ;;
            :)
                if [ "$i" -gt 0 ] && { [ -n "${form_of[${words[i - 1]}]-}" ] || [ -n "${unsupported[${words[i - 1]}]-}" ]; }; then
                    say_so "a \`;\` is missing before \`${words[i - 1]}\`: one stands between two declarations"
                else
                    say_so "a \`:\` stands within the value: a \`;\` stands between two declarations"
                fi ;;
            '{' | '}') say_so "a \`$word\` stands within the value, and no value has one" ;;
            var | env) [ "${words[i + 1]-}" = '(' ] || continue
                say_so "there is no \`$word()\`: write the value itself" ;;
            \'*) say_so "strings stand in double quotes: \`\"\`" ;;
            *) continue ;;
        esac
        return 0
    done
    return 1
}

# Forms all of whose numbers have units, but for 0.
takes_lengths() {
    is_among "$form" gap gaps margin margins edge edges size max basis
}

value_with_bad_number() {
    local i word unit within=''
    [ "$form" != areas ] || return 1
    for i in "${!words[@]}"; do
        word=${words[i]}
        if [ -n "$within" ] || [ "$word" = '[' ]; then
            [ "$word" = ']' ] && within='' || within=1
        elif [[ $word =~ ^[-+]?[.0-9]+[eE][-+]?[0-9]+(px|em|rem|fr|%)?$ ]]; then
            say_so "\`$word\` is no number: numbers have no exponent"
            return
        elif [[ $word =~ ^[-+]?[.0-9]*[0-9][.0-9]*([A-Za-z]+|%)$ ]]; then
            unit=${BASH_REMATCH[1]}
            ! explain_measured "$word" "${word%"$unit"}" "$unit" || return 0
        elif is_number "$word"; then
            ! explain_bare_number "$i" || return 0
        fi
    done
    return 1
}

# explain_measured WORD NUMBER UNIT: what is wrong with a number that has a unit.
explain_measured() {
    local lower_case
    lower_case=$(lower "$3")
    if is_among "$form" line lines2 lines4 order factor; then
        say_so "\`$1\` has a unit, and \`$property\` takes ${form_text[$form]}"
    elif ! is_among "$lower_case" px em rem fr %; then
        say_so "\`$1\` is no length: it is a number and \`px\`, in version 2 also \`em\` or \`rem\`"
    elif [ "$3" != "$lower_case" ]; then
        say_so "\`$1\` has capitals: units are in lower case, \`$2$lower_case\`"
    elif ! is_number "$2"; then
        say_so "\`$2\` is no number"
    elif [[ $2 == -*[1-9]* ]] && is_among "$form" gap gaps edge edges size max basis; then
        say_so "\`$1\` is below 0, and \`$property\` takes ${form_text[$form]}"
    elif [ "$3" = px ] && is_over "$2" 1048576; then
        say_so "\`$1\` is too long: a length has at most 1048576px"
    elif [ "$3" = % ] && is_over "$2" 1000; then
        say_so "\`$1\` is too much: a percentage goes up to 1000%"
    elif [ "$3" = fr ] && takes_lengths; then
        say_so "\`$1\` is a size of tracks alone: \`$property\` takes ${form_text[$form]}"
    else
        return 1
    fi
}

# Whether a number has a greater magnitude than this whole one.
is_over() {
    awk -v number="${1#[-+]}" -v most="$2" 'BEGIN { exit !(number + 0 > most) }'
}

# explain_bare_number I: what is wrong with a number without a unit, where one is due.
explain_bare_number() {
    local i=$1 word=${words[$1]} next=${words[$1 + 1]-} after=${words[$1 + 2]-}
    wants_unit "$i" || return 1
    if is_among "$next" px em rem fr %; then
        say_so "no space stands between a number and its unit: \`$word$next\`"
    elif [ "$next" = , ] && takes_lengths && [[ $after =~ ^[0-9]+[a-z%]*$ ]]; then
        say_so "a decimal has a point, \`$word.$after\`, and two values are separated by a space"
    elif [[ $word == *[1-9]* ]]; then
        say_so "\`$word\` has no unit: write \`${word}px\`; only 0 may stand alone"
    else
        return 1
    fi
}

# Whether a number in the place of the word I has a unit: a length, but for the number of a repeat and the factors of `flex`.
wants_unit() {
    if is_among "$form" template tracks; then
        [ "$1" -lt 2 ] || [ "${words[$1 - 1]}" != '(' ] || [ "${words[$1 - 2]}" != repeat ]
    elif [ "$form" = flex ]; then
        [ "$1" -eq 2 ] && is_number "${words[0]}" && is_number "${words[1]}"
    else
        takes_lengths
    fi
}

value_with_keyword_in_capitals() {
    local word
    # names of lines and areas may have capitals
    ! is_among "$form" template areas line lines2 lines4 '' || return 1
    for word in "${words[@]}"; do
        [[ $word == [A-Za-z]*[A-Z]* || $word == [A-Z]* ]] || continue
        say_so "\`$word\` has capitals: words of values are in lower case, \`$(lower "$word")\`"
        return 0
    done
    return 1
}

value_of_bad_count() {
    if [[ $value == *,* ]] && ! is_among "$form" template tracks areas; then
        say_so "no comma stands in a value of \`$property\`: it takes ${form_text[${form:-none}]-another value}"
    elif [ "${#words[@]}" -gt 1 ] && is_among "$form" order gap margin edge size max basis factor boxsizing overflow direction wrap; then
        say_so "\`$property\` takes one value: ${form_text[$form]}"
    elif [ "${#words[@]}" -gt 2 ] && [ "$form" = gaps ]; then
        say_so "\`$property\` takes ${form_text[$form]}"
    elif [ "${#words[@]}" -gt 4 ] && is_among "$form" margins edges; then
        say_so "\`$property\` takes ${form_text[$form]}"
    else
        return 1
    fi
}

value_of_bad_line() {
    local i word
    is_among "$form" line lines2 lines4 || return 1
    for i in "${!words[@]}"; do
        word=${words[i]}
        if [ "$word" = span ] && [[ ${words[i + 1]-} =~ ^(0+|-[0-9]+)$ ]]; then
            say_so "a \`span\` is over one track at least: \`span ${words[i + 1]}\` is none"
        elif [ "$word" = span ] && [[ ${words[i + 1]-/} == / ]]; then
            say_so "after \`span\` stands a number of tracks, or the name of a line"
        elif [[ $word =~ ^[-+]?0+$ ]]; then
            say_so "there is no line 0: lines are counted from 1, and from the end by -1"
        elif is_number "$word" && [[ $word == *.* ]]; then
            say_so "\`$word\` is no line: the number of a line is whole"
        else
            continue
        fi
        return 0
    done
    if [ "$form" = line ] && [[ $value == */* ]]; then
        say_so "\`$property\` takes one line; \`${property%-*}\` takes two with \`/\` between"
        return 0
    fi
    return 1
}

value_of_bad_areas() {
    local quotes=${value//[!\"]/}
    [ "$form" = areas ] || return 1
    if [ -z "$quotes" ]; then
        say_so "the rows of areas stand in double quotes, one string for each row: \`\"a a\" \"b .\"\`"
    elif [[ $value =~ [][\{\}\(\):\;,/] ]]; then
        say_so "a \`${BASH_REMATCH[0]}\` stands in the strings: a cell is a name, or points where it has none"
    elif [ $((${#quotes} % 2)) -eq 1 ]; then
        say_so "a double quote is missing: each row has one before it and one after"
    elif [[ $value =~ [^\"\ ]\"\"[^\"\ ] ]]; then
        say_so "a space stands between two strings: \`\"a a\" \"b .\"\`"
    else
        said=$(grep -o '"[^"]*"' <<<"$value" | tr -d '"' | area_fault)
        [ -n "$said" ]
    fi
}

# What is wrong with the rows of areas, one on each line.
area_fault() {
    awk '
        function least(a, b) { return a < b ? a : b }
        function most(a, b) { return a > b ? a : b }
        function tell(text) { if (!told) print text; told = 1 }
        NR == 1 { cells = NF }
        NF != cells { tell("the strings have not equally many cells: the first has " cells ", string " NR " has " NF) }
        {
            for (i = 1; i <= NF; i++) {
                if ($i ~ /^[.]+$/) continue
                if ($i !~ /^[A-Za-z_][A-Za-z0-9_-]*$/ || $i ~ /^(span|auto|inherit|initial|unset|revert)$/)
                    tell("`" $i "` is no name of an area: a cell is a name, or points where it has none")
                if (!($i in count)) { top[$i] = NR; left[$i] = i; right[$i] = i; names[++known] = $i }
                left[$i] = least(left[$i], i); right[$i] = most(right[$i], i); bottom[$i] = NR; count[$i]++
            }
        }
        END {
            for (k = 1; k <= known; k++) {
                n = names[k]
                if (count[n] != (bottom[n] - top[n] + 1) * (right[n] - left[n] + 1)) tell("the cells of `" n "` fill no rectangle")
            }
        }'
}

# What is wrong with a list of tracks, word by word, then as a whole.
value_of_bad_tracks() {
    local i word open=0 automatic=0 within=''
    is_among "$form" template tracks || return 1
    for i in "${!words[@]}"; do
        word=${words[i]}
        if [ -n "$within" ] || [ "$word" = '[' ]; then
            [ "$word" = ']' ] && within='' || within=1
            ! explain_line_name "$word" || return 0
            continue
        fi
        case $word in
            '(') open=$((open + 1)) ;;
            ')') open=$((open - 1)) ;;
            auto-fill | auto-fit) automatic=$((automatic + 1)) ;;
        esac
        if [ "$open" -lt 0 ]; then
            say_so "a \`)\` closes nothing"
            return
        fi
        ! explain_track_word "$i" || return 0
    done
    if [ -n "$within" ]; then
        say_so "a \`]\` is missing"
    elif [ "$open" -ne 0 ]; then
        say_so "a \`)\` is missing"
    elif [ "$automatic" -gt 1 ]; then
        say_so "a track list has one \`repeat\` with \`auto-fill\` or \`auto-fit\` at most"
    elif [ "$automatic" -eq 1 ]; then
        explain_automatic
    else
        return 1
    fi
}

# A word between square brackets.
explain_line_name() {
    case $1 in
        '[' | ']') return 1 ;;
        span | auto | inherit | initial | unset | revert) ;;
        *) ! [[ $1 =~ ^[A-Za-z_][A-Za-z0-9_-]*$ ]] || return 1 ;;
    esac
    say_so "\`$1\` is no name of a line: between \`[\` and \`]\` stand names, separated by spaces"
}

# explain_track_word I: what is wrong with one word of a track list.
explain_track_word() {
    local word=${words[$1]} found
    if [[ $word == [A-Za-z]* ]] && ! is_track_word "$word"; then
        if is_track_word "$(lower "$word")"; then
            say_so "\`$word\` has capitals: words of values are in lower case, \`$(lower "$word")\`"
        else
            found=$(nearest "$word" auto min-content max-content minmax fit-content repeat subgrid none auto-fill auto-fit)
            say_so "\`$word\` is no track size${found:+: did you mean \`$found\`?}; names of lines stand in square brackets"
        fi
    elif [ "$word" = repeat ]; then
        explain_repeat "$1"
    elif [ "$word" = minmax ] && [[ ${words[$1 + 2]-} =~ fr$ ]]; then
        say_so "the least side of \`minmax\` is no \`fr\`: write \`minmax(0, ${words[$1 + 2]})\`"
    else
        return 1
    fi
}

is_track_word() {
    is_among "$1" auto min-content max-content minmax fit-content repeat subgrid none auto-fill auto-fit
}

# The first track of a list with an automatic repeat whose size is not told.
explain_automatic() {
    local word inside=''
    for word in "${words[@]}"; do
        case $word in
            minmax) inside=1 ;;
            ')') inside='' ;;
            auto | min-content | max-content | fit-content | *fr)
                [ -z "$inside" ] || continue
                say_so "beside \`auto-fill\` and \`auto-fit\` each track is a length, a percentage, or a \`minmax\` with one, not \`$word\`"
                return ;;
        esac
    done
    return 1
}

# explain_repeat I: what is wrong with the repeat whose word has this index.
explain_repeat() {
    local i=$1 count=${words[$1 + 2]-} after=${words[$1 + 3]-} depth=0 j
    [ "${words[i + 1]-}" = '(' ] || return 1
    if [ "$form" = tracks ]; then
        say_so "\`$property\` has no \`repeat\`: its sizes repeat by themselves"
    elif [[ $count =~ ^[-+.0-9]+$ ]] && { [[ ! $count =~ ^\+?[0-9]+$ ]] || [[ $count != *[1-9]* ]] || is_over "$count" 10000; }; then
        say_so "\`repeat\` has a whole number from 1 to 10000, or \`auto-fill\` or \`auto-fit\`"
    elif [ "$after" != , ]; then
        say_so "a \`,\` stands after the number of a \`repeat\`: \`repeat(2, 1fr)\`"
    else
        for ((j = i + 1; j < ${#words[@]}; j++)); do
            case ${words[j]} in
                '(') depth=$((depth + 1)) ;;
                ')') depth=$((depth - 1)) ;;
                repeat)
                    say_so "a \`repeat\` holds no other \`repeat\`"
                    return 0 ;;
            esac
            [ "$depth" -gt 0 ] || break
        done
        return 1
    fi
}
