# shellcheck shell=bash
# What a refusal means: for a line `refused K L:C NAME` of the output, the place in the input, its line with a caret under
# the place, and one sentence on what was expected there. The script `gridlay` reads this file; it prints to standard output.
#
# explain_refusal SHOWN FILE K L:C NAME   FILE has the input, SHOWN is how it is called
#
# What the functions below find is kept in these variables:
#   edit_words     the words that an edit can begin with (words.sh)
#   line, column   the line of the place, and the byte in it, from 1
#   head, rest     the line before the place, and from it on, without the comment
#   token          the word or mark at the place; nothing at the end of the line
#   version        the version of the language that the document asks for: 1 or 2
#   edit           the number of the edit, 0 in the document
#   words          what `split` made of a text
#   property, form, value   of the declaration at the place; `form` is nothing where no table has the property
#   said           the sentence

front=$(dirname -- "$(readlink -f -- "${BASH_SOURCE[0]}")")
# shellcheck source=words.sh
. "$front/words.sh"
# shellcheck source=explain_declarations.sh
. "$front/explain_declarations.sh"
# shellcheck source=explain_values.sh
. "$front/explain_values.sh"

declare -gA form_text=() form_of=() unsupported=() instead=()

# Words for properties: front/properties.txt says what each kind of line means.
read_properties() {
    local kind name text
    [ "${#form_of[@]}" -eq 0 ] || return 0
    while read -r kind name text; do
        case $kind in
            form) form_text[$name]=$text ;;
            takes) form_of[$name]=$text ;;
            unsupported) unsupported[$name]=$text ;;
            instead) instead[$name]=$text ;;
        esac
    done <"$front/properties.txt"
}

say_so() {
    said=$1
}

# The line of this number, its bytes 0 as bytes 1, which bash can hold.
line_of() {
    lines_of "$1" | sed -n "$2{p;q}" | tr '\000' '\001'
}

# The words and marks of a text, without its comment.
split() {
    local text
    text=$(sed 's/#.*//; s/[][{}():;,/]/ & /g' <<<"$1")
    read -ra words <<<"$text"
}

is_number() {
    [[ $1 =~ ^[-+]?([0-9]+\.?[0-9]*|\.[0-9]+)$ ]]
}

# The version that the first line that counts asks for; 1 where it asks for none.
version_of() {
    lines_of "$1" | awk '{ sub(/#.*/, "") } NF { if ($1 == "gridlay" && $2 == "2") v = 2; exit } END { print v ? v : 1 }'
}

# The last node of the document before this line: the number of its line, its spaces, and its name.
node_before() {
    lines_of "$1" | awk -v stop="$2" 'NR >= stop { exit } { sub(/#.*/, "") }
        NF && ++counted > 2 { match($0, /^ */); at = NR; spaces = RLENGTH; name = $1 } END { if (at) print at, spaces, name }'
}

# The parent that a node with so many spaces on this line has.
parent_before() {
    lines_of "$1" | awk -v stop="$2" -v spaces="$3" 'NR >= stop { exit } { sub(/#.*/, "") }
        NF && ++counted > 2 { match($0, /^ */); if (RLENGTH == spaces - 2) name = $1 } END { print name }'
}

# The number of the line of the node of this name in the document; nothing where there is none.
line_of_node() {
    lines_of "$1" | awk -v name="$2" '$0 == "---" { exit } { sub(/#.*/, "") } NF && ++counted > 2 && $1 == name { print NR; exit }'
}

# All names of nodes of the document, and of those that edits insert before this line.
names_before() {
    lines_of "$1" | awk -v stop="$2" 'NR >= stop { exit } $0 == "---" { script = 1; next } { sub(/#.*/, "") }
        !script && NF && ++counted > 2 { print $1 } script && $1 == "insert" { print $4 }' | sort -u
}

# ---- the bytes of a line

# The bytes from the place on, as numbers: at most four.
bytes_at() {
    line_of "$1" "$2" | tail -c +"$3" | head -c 4 | od -An -tu1
}

explain_bad_byte() {
    local a b c
    read -r a b c _ < <(bytes_at "$1" "$2" "$column")
    case $a in
        13) say_so "a carriage return stands here: lines end with a line feed alone, so save the file with Unix line ends" ;;
        9) say_so "a tab stands here: nodes are indented by two spaces for each level, and words are separated by spaces" ;;
        1) say_so "a byte that is no text stands here: the input is plain text of the bytes 32 to 126" ;;
        239) if [ "$2:$column:${b-}:${c-}" = 1:1:187:191 ]; then
            say_so "a byte order mark stands here: save the file as plain text without one"
        else
            explain_other_bytes "$a" "${b-}" "${c-}"
        fi ;;
        254 | 255) say_so "the text seems to be UTF-16: save the file as plain ASCII text" ;;
        *) explain_other_bytes "$a" "${b-}" "${c-}" ;;
    esac
}

explain_other_bytes() {
    case "$1 $2 $3" in
        '194 160 '*) say_so "a no-break space stands here: write a plain space" ;;
        '226 128 147' | '226 128 148') say_so "a dash that is no ASCII stands here: write \`-\`, and \`---\` before a script" ;;
        '226 128 156' | '226 128 157') say_so "a curly quote stands here: write a plain \`\"\`" ;;
        '226 128 '*) say_so "a character that is no ASCII stands here: write a plain one" ;;
        *) if [ "$1" -lt 128 ]; then
            say_so "the byte $1 stands here, which is no text: the input is plain text of the bytes 32 to 126"
        else
            say_so "a character that is no ASCII stands here: names, words and comments too are of the bytes 32 to 126"
        fi ;;
    esac
}

# ---- the header

explain_bad_header() {
    local file=$1 at=$2 first
    first=$(lines_of "$file" | awk '{ sub(/#.*/, "") } NF { print NR; exit }')
    if [ -z "$first" ]; then
        say_so "the text is empty: it begins with a line \`gridlay 1\` (or \`gridlay 2\`), then comes \`viewport W H\`"
    elif [ "$at" -le "$first" ]; then
        explain_first_line
    else
        explain_viewport
    fi
}

explain_first_line() {
    split "$line"
    if [ "$line" = --- ]; then
        say_so "no document stands before the line \`---\`: it begins with a line \`gridlay 1\` (or \`gridlay 2\`)"
    elif [ "${words[0]-}" = gridlay ] && [ "${#words[@]}" -gt 2 ] && [[ ${words[1]} == [12] ]]; then
        say_so "after \`gridlay ${words[1]}\` the line ends: nothing else stands on it"
    elif [ "${words[0]-}" = gridlay ]; then
        say_so "there are the versions \`gridlay 1\` and \`gridlay 2\`, and no other"
    elif [ "$(lower "${words[0]-}")" = gridlay ]; then
        say_so "\`gridlay\` is written in lower case: \`gridlay 1\` or \`gridlay 2\`"
    else
        say_so "the first line is \`gridlay 1\` (or \`gridlay 2\`, with lengths in \`em\` and \`rem\`), and this is another"
    fi
}

explain_viewport() {
    split "$line"
    if [ "$line" = --- ] || [ "${#words[@]}" -eq 0 ]; then
        say_so "the second line, \`viewport W H\`, is missing"
    elif [ "${words[0]}" != viewport ]; then
        say_so "the second line is \`viewport W H\`, the size of the window in px, and this is another"
    elif [ "${#words[@]}" -lt 3 ]; then
        say_so "\`viewport\` has two numbers, a width and a height in px, like \`viewport 640 480\`"
    elif is_size "${words[1]}" && is_size "${words[2]}"; then
        say_so "after \`viewport ${words[1]} ${words[2]}\` the line ends: nothing else stands on it"
    else
        say_so "\`viewport\` has two numbers from 0 to 1048576, with or without \`px\`, like \`viewport 640 480\`"
    fi
}

# A number from 0 to 1,048,576, with or without px, as it stands in kinds; larger ones are not told apart here.
is_size() {
    is_number "${1%px}" && [[ ${1%px} != -*[1-9]* ]]
}

# ---- nodes

explain_bad_indent() {
    local at spaces now=$((column - 1))
    read -r at spaces _ < <(node_before "$1" "$2")
    if [ -z "${at-}" ]; then
        say_so "the first node is the root, and stands without spaces before it"
    elif [ $((now % 2)) -eq 1 ]; then
        say_so "the node has $now space$([ "$now" -eq 1 ] || echo s) before it: there are two for each level, so an even number"
    else
        say_so "the node has $now spaces before it, and the one above it, in line $at, has $spaces: at most $((spaces + 2)) can stand here"
    fi
}

explain_bad_name() {
    if [[ $line =~ ^\ *-+\ *$ ]]; then
        say_so "the line that ends the document is exactly \`---\`: no spaces stand before or after it"
    elif [ -z "$token" ]; then
        say_so "the name of a node is missing here"
    elif [ "$token" = '}' ]; then
        say_so "a \`}\` stands where the name of a node is due: the braces of a node open and close on its own line"
    elif [ "$token" = / ]; then
        say_so "a \`/\` stands where the name of a node is due: a comment begins with \`#\`"
    elif [ "${#token}" -gt 58 ] && [[ $token =~ ^[A-Za-z_][A-Za-z0-9_-]*$ ]]; then
        say_so "the name has ${#token} bytes, and a name has at most 58"
    else
        say_so "\`${token:0:40}\` is no name: a name begins with a letter or \`_\`, and goes on with letters, digits, \`-\` and \`_\`"
    fi
}

explain_duplicate_name() {
    local at
    at=$(line_of_node "$1" "$token")
    if [ -n "$at" ] && [ "$at" != "$2" ]; then
        say_so "the node of line $at is called \`$token\` too: each node has a name of its own"
    else
        say_so "a node of the name \`$token\` is there: each node has a name of its own"
    fi
}

explain_unknown_kind() {
    local found=
    found=$(nearest "$token" grid flex leaf words)
    split "$head"
    if [ "${words[0]-}" = content ] && [ "$edit" -gt 0 ]; then
        say_so "\`content\` gives a leaf its content: \`leaf W H\` or \`words LINE SPACE w1 w2 ..\` stands after the name"
    elif [ "$edit" -eq 0 ] && is_edit_word "${words[0]-}"; then
        say_so "an edit stands here, and the document has not ended: edits stand after a line \`---\`"
    elif [ -z "$token" ]; then
        say_so "the kind of the node is missing after its name: \`grid\`, \`flex\`, \`leaf W H\` or \`words LINE SPACE w1 w2 ..\`"
    elif [ "$token" = : ]; then
        say_so "a \`:\` stands where a kind is due: declarations stand in braces on the line of their node"
    else
        say_so "the kind of a node is \`grid\`, \`flex\`, \`leaf W H\` or \`words LINE SPACE w1 w2 ..\`${found:+: did you mean \`$found\`?}"
    fi
}

is_edit_word() {
    is_among "$1" "${edit_words[@]}"
}

explain_leaf_has_children() {
    local name
    if [ "$edit" -gt 0 ]; then
        split "$head"
        if [ "${words[0]-}" = content ]; then
            say_so "\`$token\` has children, and a leaf has none: \`remove\` or \`move\` them first"
        else
            say_so "\`$token\` is a \`leaf\` or \`words\`, and these hold no nodes: only \`grid\` and \`flex\` do"
        fi
    else
        name=$(parent_before "$1" "$2" $((column - 1)))
        say_so "the node stands below \`$name\`, a \`leaf\` or \`words\`, and these hold no nodes: only \`grid\` and \`flex\` do"
    fi
}

explain_second_root() {
    if is_edit_word "$token"; then
        say_so "an edit stands here, and the document has not ended: edits stand after a line \`---\`"
    else
        say_so "a document has one root, and this node stands beside it: indent it by two spaces, or put both below a node"
    fi
}

explain_too_many_nodes() {
    if [ "$version" = 1 ]; then
        say_so "a document of version 1 has at most 32768 nodes: \`gridlay 2\` allows 131072"
    else
        say_so "a document of version 2 has at most 131072 nodes, and a node at most 65536 children"
    fi
}

# ---- edits

explain_unknown_edit() {
    local found
    case $token in
        ---) say_so "the document has ended at the first line \`---\`: no second one is needed" ; return ;;
        add | append | create | new) found=insert ;;
        delete | del | rm | erase) found=remove ;;
        change | style | update) found='set' ;;
        resize) found=viewport ;;
        back | revert | rollback) found=undo ;;
        again | repeat) found=redo ;;
        click | pick | point) found=hit ;;
        write) say_so "\`write\` is no edit: \`./gridlay write FILE\` writes the document after all its edits" ; return ;;
        /) say_so "a comment begins with \`#\`" ; return ;;
        *) found=$(nearest "$token" "${edit_words[@]}") ;;
    esac
    if [ -z "$found" ] && [ -n "$(line_of_node "$1" "$token")" ]; then
        say_so "an edit begins with its word, like \`set $token property: value\`"
    else
        say_so "an edit begins with one of ${edit_words[*]}${found:+: did you mean \`$found\`?}"
    fi
}

explain_unknown_name() {
    local found
    if [ -n "$(line_of_node "$1" "$token")" ]; then
        say_so "no node is called \`$token\` any more: an edit before this one took it out"
    else
        found=$(nearest "$token" "$(names_before "$1" "$2")")
        say_so "no node is called \`$token\`${found:+: did you mean \`$found\`?}"
    fi
}

explain_cycle() {
    split "$head"
    if [ "${words[1]-}" = "$token" ]; then
        say_so "\`$token\` cannot be moved below itself"
    else
        say_so "\`${words[1]-}\` cannot be moved below \`$token\`, which stands below it"
    fi
}

explain_bad_index() {
    split "$head"
    if [ "${words[0]-}" = move ]; then
        say_so "\`${words[2]-}\` has fewer children than $token, \`${words[1]-}\` not counted; 0 is the first place"
    else
        say_so "\`${words[1]-}\` has fewer children than $token; 0 is the first place"
    fi
}

# The sentence for a fault by its name.
explain_fault() {
    local file=$1 at=$2
    case $3 in
        bad-byte) explain_bad_byte "$file" "$at" ;;
        line-too-long) say_so "the line has more than 65536 bytes: split the node's words or tracks, or write equal tracks with \`repeat\`" ;;
        bad-header) explain_bad_header "$file" "$at" ;;
        bad-indent) explain_bad_indent "$file" "$at" ;;
        bad-name) explain_bad_name ;;
        duplicate-name) explain_duplicate_name "$file" "$at" ;;
        unknown-kind) explain_unknown_kind ;;
        unknown-property) explain_unknown_property ;;
        bad-value) explain_bad_value ;;
        duplicate-property) explain_duplicate_property ;;
        unsupported) explain_unsupported ;;
        too-deep) say_so "a node would stand on level 65: a document has at most 64 levels" ;;
        too-many-nodes) explain_too_many_nodes ;;
        leaf-has-children) explain_leaf_has_children "$file" "$at" ;;
        second-root) explain_second_root ;;
        no-root) say_so "no node stands after the two header lines: a line like \`main grid\` is the root" ;;
        unknown-edit) explain_unknown_edit "$file" ;;
        unknown-name) explain_unknown_name "$file" "$at" ;;
        root) say_so "\`$token\` is the root, which stays where it is" ;;
        cycle) explain_cycle ;;
        bad-index) explain_bad_index ;;
        nothing-to-undo) say_so "fewer than $token edits can be taken back: refused ones, those that are taken back and each \`hit\` do not count" ;;
        nothing-to-redo) say_so "fewer than $token edits are taken back, and a new edit after \`undo\` leaves nothing to redo" ;;
        *) say_so "docs/FORMAT.md tells what this fault is" ;;
    esac
}

# The line with a caret under the place: a window of at most 100 bytes of it, and a point for each byte that is no text.
show_place() {
    local from=0 text=$line at=$column
    if [ "$at" -gt 80 ]; then
        from=$((at - 40))
    fi
    text=$(tr -c '\n\040-\176' '.' <<<"${text:from:100}")
    [ -n "${line// /}" ] || text="(the text ends here)" at=1
    printf '    %s\n    %*s^\n' "$text" $((at - from - 1)) ''
}

explain_refusal() {
    local LC_ALL=C
    local shown=$1 file=$2 edit=$3 at=${4%%:*} column=${4#*:} name=$5
    local line head rest token version property form value so_far said=
    local -a words=()
    read_properties
    line=$(line_of "$file" "$at")
    version=$(version_of "$file")
    head=${line:0:column - 1}
    rest=${line:column - 1}
    rest=${rest%%#*}
    case $rest in
        [][\{\}\(\):\;,/]*) token=${rest:0:1} ;;
        *) token=${rest%%[][ \{\}\(\):\;,/]*} ;;
    esac
    explain_fault "$file" "$at" "$name"
    printf '%s:%s:%s: %s%s\n' "$shown" "$at" "$column" "$name" "$([ "$edit" = 0 ] || echo " (edit $edit)")"
    show_place
    printf '  %s\n' "$said"
}
