# shellcheck shell=bash
# What is wrong with a declaration, with the numbers of a kind or an edit, and at the end of a line; and what is not supported.
# (explain.sh reads this file, and tells what its variables are.)
# shellcheck disable=SC2034,SC2154

# What stands of the declaration before the place: after the last `{` or `;`, in `set` and `unset` after the name of the node.
declared_so_far() {
    local text=$head
    case $text in
        *['{;']*) text=${text##*['{;']} ;;
        *) split "$text"
            if [ "$edit" -gt 0 ] && is_among "${words[0]-}" set unset; then
                text=${text#*"${words[0]}"}
                text=${text#*"${words[1]-}"}
            else
                return 1
            fi ;;
    esac
    so_far=$text
}

# A list of properties that a misspelt one may mean.
known_property() {
    local word
    word=$(lower "$1")
    if [ -n "${form_of[$word]-}" ]; then
        printf '%s' "$word"
        return
    fi
    # gridTemplateColumns, or grid_template_columns
    word=$(sed 's/[A-Z]/-&/g; s/_/-/g' <<<"$1")
    word=$(lower "$word")
    if [ -n "${form_of[$word]-}" ]; then
        printf '%s' "$word"
        return
    fi
    nearest "$1" "${!form_of[@]}"
}

explain_unknown_property() {
    local found
    if [ -z "$token" ]; then
        say_so "the name of a property is missing here"
    elif [ "$token" = '{' ] && [ "$edit" -gt 0 ]; then
        say_so "an edit \`set\` has no braces: it is \`set NAME property: value\`, with one declaration"
    elif [[ $token == [][\{\}\(\):\;,/] ]]; then
        say_so "a \`$token\` stands where the name of a property is due"
    elif [ -n "${instead[$token]-}" ]; then
        say_instead "\`$token\` is no property of this format" "${instead[$token]}"
    elif [[ $token == --* ]]; then
        say_so "there are no properties of one's own and no \`var()\`: write the value where it is used"
    else
        found=$(known_property "$token")
        say_so "no property is called \`${token:0:60}\`${found:+: did you mean \`$found\`?}"
        [ -n "$found" ] || say_so "$said: docs/FORMAT.md has the table of properties"
    fi
}

explain_duplicate_property() {
    say_so "\`$token\` stands twice in these braces: leave one out"
}

# The value from the place on, up to what ends the declaration: in an edit `set` that is `;` alone.
value_at() {
    split "$head"
    if [ "$edit" -gt 0 ] && [ "${words[0]-}" = set ]; then
        value=${rest%%;*}
    else
        value=${rest%%[;\}]*}
    fi
    value=${value%"${value##*[! ]}"}
}

explain_unsupported() {
    if ! declared_so_far || [[ ! $so_far =~ ^\ *([^ :]+)\ *:\ *$ ]]; then
        explain_unsupported_property
        return
    fi
    property=${BASH_REMATCH[1]}
    form=${form_of[$property]-}
    value_at
    explain_unsupported_value
}

explain_unsupported_property() {
    if [ "$token" = font-size ]; then
        say_so "\`font-size\` is there in version 2 alone: begin the document with \`gridlay 2\`"
    else
        say_instead "\`$token\` is not supported" "${unsupported[$token]-what docs/FORMAT.md tells}"
    fi
}

# say_instead WHAT TEXT: what is to be written, or why there is nothing to write.
say_instead() {
    case $2 in
        nothing:*) say_so "$1, and needs none in its place:${2#nothing:}" ;;
        *) say_so "$1: write $2" ;;
    esac
}

explain_unsupported_value() {
    local i word within='' after_subgrid=''
    split "$value"
    for i in "${!words[@]}"; do
        word=${words[i]}
        if [ -n "$within" ]; then
            [ "$word" != ']' ] || within=
            continue
        fi
        [ "$word" != '[' ] || within=1
        [ "$word" != subgrid ] || after_subgrid=1
        if unsupported_word "$word" "${words[i + 1]-}" "$after_subgrid"; then
            return
        fi
    done
    say_so "the value holds a word that is not supported; docs/FORMAT.md tells what stands in its place"
}

unsupported_word() {
    local word=$1 next=$2 after_subgrid=$3
    case $word in
        inherit | initial | unset | revert)
            say_so "\`$word\` is not supported: leave the declaration out, or take it back with an edit \`unset NAME $property\`"
            return ;;
        calc | min | max | clamp)
            [ "$next" = '(' ] || return 1
            say_so "\`$word()\` is not supported: write the length that it comes to"
            return ;;
    esac
    if [[ $word =~ ^[-+.0-9]+(em|rem)$ ]]; then
        say_so "lengths in \`${BASH_REMATCH[1]}\` are there in version 2 alone: begin the document with \`gridlay 2\`, or write px"
        return
    fi
    if [[ $word =~ ^[-+.0-9]+(ex|ch|vw|vh|vmin|vmax|cm|mm|in|pt|pc)$ ]]; then
        say_so "lengths in \`${BASH_REMATCH[1]}\` are not supported: write px"
        return
    fi
    case $form:$word in
        template:masonry) say_so "\`masonry\` is not supported: the tracks of both axes are told" ;;
        template:auto-fill | template:auto-fit)
            [ -n "$after_subgrid" ] || return 1
            say_so "\`$word\` is not supported after \`subgrid\`: write \`repeat(N, [name])\` with a number" ;;
        content:baseline | items:baseline | self:baseline)
            say_so "\`baseline\` is not supported: write \`start\`" ;;
        content:left | items:left | self:left | content:right | items:right | self:right)
            say_so "\`$word\` is not supported: write \`$([ "$word" = left ] && echo start || echo end)\`" ;;
        size:*-content | max:*-content | basis:*-content)
            say_so "\`$word\` is not supported here: a track can have it, like \`grid-template-columns: $word\`" ;;
        margin:*% | margins:*% | edge:*% | edges:*%)
            say_so "a percentage is not supported in \`$property\`: write px" ;;
        direction:*-reverse) say_so "\`$word\` is not supported: write \`${word%-reverse}\`, and \`order\` on the children" ;;
        wrap:*-reverse) say_so "\`$word\` is not supported: write \`wrap\`" ;;
        *) return 1 ;;
    esac
}

# ---- values that have none of the forms

explain_bad_value() {
    if declared_so_far; then
        explain_bad_declaration
    else
        explain_bad_number
    fi
}

explain_bad_declaration() {
    if [[ $so_far == *\}* ]]; then
        say_so "after the \`}\` of a node its line ends"
    elif [[ $so_far =~ ^\ *([^ :]+)\ *$ ]]; then
        explain_no_colon "${BASH_REMATCH[1]}"
    elif [[ $so_far =~ ^\ *([^ :]+)\ *:\ *$ ]]; then
        property=${BASH_REMATCH[1]}
        form=${form_of[$property]-}
        value_at
        if [ -n "$value" ]; then
            explain_value
        else
            say_so "the value of \`$property\` is missing: it takes ${form_text[${form:-none}]-a value}"
        fi
    elif [ -n "$token" ]; then
        say_so "an edit \`set\` has one declaration: the next one is a further edit"
    else
        say_so "a \`}\` is missing: the declarations of a node end on its own line"
    fi
}

explain_no_colon() {
    split "$head"
    if [ "${words[0]-}" = unset ] && [ "$edit" -gt 0 ]; then
        say_so "after the property an edit \`unset\` ends"
    else
        say_so "a \`:\` is missing after \`$1\`"
    fi
}

# A number of a kind or of an edit, or text that follows the end of a line.
explain_bad_number() {
    local -a before
    split "$head"
    before=(${words[@]+"${words[@]}"})
    if [ "$edit" -gt 0 ]; then
        case ${before[0]-} in
            insert)
                if [ "${#before[@]}" -eq 2 ]; then
                    explain_index
                    return
                fi
                before=("${before[@]:3}") ;;
            move)
                if [ "${#before[@]}" -eq 3 ]; then
                    explain_index
                else
                    say_so "after \`move NAME PARENT INDEX\` the line ends"
                fi
                return ;;
            content) before=("${before[@]:1}") ;;
            undo | redo)
                explain_count "${before[0]}" ${#before[@]}
                return ;;
            hit)
                explain_point $((${#before[@]} - 1))
                return ;;
            viewport)
                explain_numbers viewport "width" "height" $((${#before[@]} - 1))
                return ;;
            *)
                say_so "after \`${before[*]}\` the edit ends"
                return ;;
        esac
    fi
    # before: the name, the kind, and its numbers so far
    case ${before[1]-} in
        leaf) explain_numbers leaf "width" "height" $((${#before[@]} - 2)) ;;
        words) explain_numbers words "height of a line" "space between two words" $((${#before[@]} - 2)) ;;
        *) say_so "after the kind \`${before[1]-}\` stand the declarations in braces, or the line ends" ;;
    esac
}

explain_index() {
    if [ -z "$token" ]; then
        say_so "the INDEX is missing: the number of the place among the children, from 0"
    else
        say_so "\`$token\` is no INDEX: it is a whole number from 0 to 1000000, the place among the children"
    fi
}

# explain_count WORD WORDS: the number after `undo` or `redo`, after so many words.
explain_count() {
    if [ "$2" -gt 1 ]; then
        say_so "after the number of edits the line ends"
    elif [ -z "$token" ]; then
        say_so "the number of edits is missing: \`$1 1\` is for one edit, and there can be up to 1000000"
    else
        say_so "\`${token:0:40}\` is no number of edits: it is a whole number from 1 to 1000000"
    fi
}

# explain_point NUMBERS: the point of `hit`, after so many numbers.
explain_point() {
    if [ "$1" -gt 1 ]; then
        say_so "after \`hit X Y\` the line ends"
    elif [ -z "$token" ]; then
        say_so "\`hit\` has two numbers, X and Y, in px from the upper left corner of the viewport: \`hit 100 20\`"
    elif explain_joined "a number of \`hit\`"; then
        return
    elif [[ $token =~ ^[-+.0-9]+([A-Za-z]+|%)$ ]] && [ "${BASH_REMATCH[1]}" != px ]; then
        say_so "\`$token\` is in \`${BASH_REMATCH[1]}\`: the numbers of \`hit\` are in px, with or without \`px\`"
    else
        say_so "\`${token:0:40}\` is no number of px from -1048576 to 1048576"
    fi
}

# explain_joined WHAT: tells where two numbers are joined by something else than a space.
explain_joined() {
    if [ "$token" = , ]; then
        say_so "a \`,\` stands where $1 is due: numbers are separated by spaces"
    elif [[ $token =~ ^[-+.0-9]+x[-+.0-9]+$ ]]; then
        say_so "the two numbers are separated by a space: \`${token/x/ }\`"
    else
        return 1
    fi
}

# explain_numbers WORD FIRST SECOND SO-FAR: what the number at the place is, after so many.
explain_numbers() {
    local word=$1 what
    case $4 in
        0) what=$2 ;;
        1) what=$3 ;;
        *) what='more' ;;
    esac
    if [ "$what" = more ] && [ "$word" != words ]; then
        say_so "after the two numbers of \`$word\` $([ "$word" = leaf ] && echo 'stand the declarations in braces, or ')the line ends"
        return
    fi
    [ "$what" != more ] || what="width of a word"
    if [ -z "$token" ] || [ "$token" = '{' ]; then
        say_so "the $what is missing: a number of px after \`$word\`"
    elif ! explain_joined "the $what"; then
        say_so "\`${token:0:40}\` is no $what: it is a number from 0 to 1048576, with or without \`px\`"
    fi
}
