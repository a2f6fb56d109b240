# shellcheck shell=bash
# The word `check`: what is wrong with a file. First its bytes, which needs no program: line ends, tabs, a byte order mark and what
# else is no plain text, with the command that mends it. Then the program reads it, and its output is thrown away.

front=$(dirname -- "$(readlink -f -- "${BASH_SOURCE[0]}")")
# shellcheck source=answer.sh
. "$front/answer.sh"

# Counts of bytes that no document has, each with the line where it first comes: `KIND COUNT LINE`, one line each.
count_bytes() {
    lines_of "$1" | LC_ALL=C awk '
        function note(kind, many) { if (many) { if (!(kind in count)) line[kind] = NR; count[kind] += many } }
        NR == 1 && /^\357\273\277/ { note("mark", 1); sub(/^\357\273\277/, "") }
        NR == 1 && (/^\377\376/ || /^\376\377/) { note("wide", 1) }
        { if (length($0) > 65536) note("long", 1) }
        { if (sub(/\r$/, "")) note("ends", 1) }
        /[^ -~]/ {
            note("tabs", gsub(/\t/, " "))
            note("returns", gsub(/\r/, " "))
            note("high", gsub(/[\200-\377]+/, " "))
            note("others", gsub(/[^ -~]/, " "))
        }
        END { for (kind in count) print kind, count[kind], line[kind] }'
}

# times COUNT: how a count is said.
times() {
    [ "$1" -eq 1 ] && echo "once" || echo "$1 times"
}

# Whether all bytes are those of texts, in lines that are not too long: seen at once, also of a large file.
has_plain_bytes() {
    [ "$(LC_ALL=C tr -d '\n\040-\176' <"$1" | head -c 1 | wc -c)" -eq 0 ] && [ "$(LC_ALL=C wc -L <"$1")" -le 65536 ]
}

# tell_bytes SHOWN FILE: tells what bytes are wrong and what mends them; the status is 0 where something is wrong.
tell_bytes() {
    local shown=$1 file=$2 kind many at name mend=()
    local -A count=() line=()
    if has_plain_bytes "$file"; then
        return 1
    fi
    while read -r kind many at; do
        count[$kind]=$many
        line[$kind]=$at
    done < <(count_bytes "$file")
    printf -v name %q "$shown"
    if [ -n "${count[wide]-}" ]; then
        printf '%s: the text is UTF-16, and a document is plain ASCII text. This writes it so:\n' "$shown"
        printf '    iconv -f UTF-16 -t ASCII//TRANSLIT %s > NEW\n' "$name"
        return 0
    fi
    tell mark "the file begins with a byte order mark, which is a bad byte" "1s/^\xef\xbb\xbf//"
    tell ends "lines end with a carriage return and a line feed; in a document they end with a line feed alone" 's/\r$//'
    tell returns "a carriage return stands within a line; in a document lines end with a line feed" 's/\r/\n/g'
    tell tabs "a tab stands in a line; nodes are indented by two spaces for each level" 's/\t/  /g'
    if [ "${#mend[@]}" -gt 0 ]; then
        printf 'This mends %s:\n    sed -i %s %s\n' "$([ "${#mend[@]}" -eq 1 ] && echo it || echo them)" "${mend[*]}" "$name"
    fi
    tell high "characters that are no ASCII stand in a line; comments too are of the bytes 32 to 126"
    tell others "bytes that are no text stand in a line"
    tell long "a line has more than 65536 bytes"
    [ "${#count[@]}" -gt 0 ]
}

# tell KIND TEXT [MEND]: tells of bytes of a kind where there are some, with the line where they come first, and notes what mends
# them, a command of sed.
tell() {
    local many=${count[$1]-}
    [ -n "$many" ] || return 0
    printf '%s:%s: %s%s\n' "$shown" "${line[$1]}" "$2" "$([ "$many" -eq 1 ] || echo " (here first, and $many times in all)")"
    [ $# -lt 3 ] || mend+=("-e '$3'")
}

# What a document and its script came to. (a box may have any name: its line has five words, and no answer has)
tell_outcome() {
    awk -v file="$1" '
        NF == 5 { if (layouts == 1 && edits == 0) nodes++; next }
        $1 == "layout" || $1 == "refused" || $1 == "hit" { if (layouts + refused > 0) edits++ }
        $1 == "layout" { layouts++ }
        $1 == "refused" { refused++ }
        END {
            if (!layouts) { print file ": the document is refused"; exit }
            text = file ": a document of " nodes (nodes == 1 ? " node" : " nodes")
            if (edits) text = text " and " edits (edits == 1 ? " edit" : " edits")
            print text (refused ? ", of which " refused (refused == 1 ? " is" : " are") " refused" : ", all well")
        }' "$2"
}

check_file() {
    local shown=$1 file room status
    room=$(mktemp -d) || exit 70
    # shellcheck disable=SC2064
    trap "rm -rf -- '$room'" EXIT
    file=$(readlink -f -- "$shown")
    if [ ! -f "$file" ]; then
        # (what comes from a pipe is read more than once here)
        cat -- "$shown" >"$room/input"
        file=$room/input
    fi
    if tell_bytes "$shown" "$file"; then
        exit 2
    fi
    find_program
    "$program" layout <"$file" >"$room/out"
    status=$?
    explain_all "$shown" "$file" <"$room/out"
    case $status in
        0 | 2 | 3) tell_outcome "$shown" "$room/out" ;;
        *) say_status "$status" layout ;;
    esac
    exit "$status"
}
