# shellcheck shell=bash
# The words of the script `gridlay`: which there are in this checkout, and how a call of each looks; and the words of edits.

# (more than one file reads this one)
[ -z "${edit_words-}" ] || return 0

top=$(dirname -- "$(dirname -- "$(readlink -f -- "${BASH_SOURCE[0]}")")")

# crates_of NAME: a crate of this repository and those that it stands on, lowest first, itself last.
crates_of() {
    awk -v top="$1" '
        function visit(name,    parts, i, n) {
            if (!(name in below) || name in seen) return
            seen[name] = 1
            n = split(below[name], parts, " ")
            for (i = 1; i <= n; i++) visit(parts[i])
            print name
        }
        { sub(/#.*/, "") }
        /:/ { at = index($0, ":"); name = substr($0, 1, at - 1); sub(/ .*/, "", name); below[name] = substr($0, at + 1) }
        END { visit(top) }' "$top/crates.txt"
}

# (build.sh proves these)
# shellcheck disable=SC2034
program_crates=$(crates_of gridlay)

# ---- words in general

is_among() {
    local one=$1 it
    shift
    for it in "$@"; do
        [ "$it" != "$one" ] || return 0
    done
    return 1
}

# The lines of a file, each as far as the program reads it and a little further: tools are slow on lines of many megabytes.
lines_of() {
    LC_ALL=C cut -b 1-65600 <"$1"
}

lower() {
    printf '%s' "${1,,}"
}

# The one of the words that is nearest to the first one, where it is near enough to be meant: a letter that is wrong, too much or
# missing, or two that are exchanged, for each four letters or so.
nearest() {
    local word=$1
    shift
    printf '%s\n' "$@" | awk -v word="$word" '
        function least(a, b) { return a < b ? a : b }
        function distance(a, b,    n, m, i, j, d) {
            n = length(a); m = length(b)
            for (i = 0; i <= n; i++) d[i, 0] = i
            for (j = 0; j <= m; j++) d[0, j] = j
            for (i = 1; i <= n; i++)
                for (j = 1; j <= m; j++) {
                    d[i, j] = least(least(d[i - 1, j], d[i, j - 1]) + 1, d[i - 1, j - 1] + (substr(a, i, 1) != substr(b, j, 1)))
                    if (i > 1 && j > 1 && substr(a, i, 1) == substr(b, j - 1, 1) && substr(a, i - 1, 1) == substr(b, j, 1))
                        d[i, j] = least(d[i, j], d[i - 2, j - 2] + 1)
                }
            return d[n, m]
        }
        BEGIN { most = int((length(word) + 1) / 4); if (most > 3) most = 3 }
        $0 != "" && length($0) - length(word) <= most && length(word) - length($0) <= most {
            far = distance(tolower(word), tolower($0))
            if (far <= most && (best == "" || far < shortest)) { best = $0; shortest = far }
        }
        END { print best }'
}

# ---- the words of gridlay

# The words with which a line after `---` can begin.
edit_words=(set unset insert remove move content viewport undo redo hit)

# The words of `gridlay`, and of them those that are here: what answers some of them may be missing in a checkout.
all_words=(layout make check write picture play library)
is_here() {
    case $1 in
        picture) [ -x "$top/view/picture" ] ;;
        play) [ -x "$top/view/build_engine.sh" ] ;;
        library) [ -x "$top/tools/library.sh" ] && [ -n "$(crates_of gridlay_c)" ] ;;
        *) is_among "$1" "${all_words[@]}" ;;
    esac
}

# How a word is called, and what it does.
tell_word() {
    case $1 in
        layout) tell_call "layout [--stats] < FILE" "the same, of standard input" ;;
        make) tell_call "make --seed N --nodes M" "generates a document and eight edits, and tells sums of their boxes" ;;
        check) tell_call "check FILE" "tells what is wrong with FILE, its line ends too, and prints no boxes" ;;
        write) tell_call "write FILE" "writes the document that its edits make of it, in canonical form" ;;
        picture) tell_call "picture FILE > PAGE.html" "draws the boxes of FILE on a page for a browser" ;;
        play) tell_call "play" "builds a page that lays out while you type" ;;
        library) tell_call "library" "builds the library that C and Rust programs call" ;;
    esac
}

tell_call() {
    printf '  ./gridlay %-26s %s\n' "$1" "$2"
}

print_usage() {
    local word
    echo "gridlay lays out a document of grids, subgrids and flex containers, and prints where each box stands, in px."
    echo
    tell_call "FILE [--stats]" "prints the boxes of FILE, and those after each edit of its script"
    for word in "${all_words[@]}"; do
        ! is_here "$word" || tell_word "$word"
    done
    tell_call --version "tells the kit, the commit, and whether the program is built"
    tell_call --help "tells this"
    cat <<'TEXT'

With any of them:
  --unproved   takes a program that is compiled at once, in some minutes; nothing is proved of it
  --explain    tells on standard error what each refusal means, also where that is no terminal

An example:  ./gridlay --unproved examples/first.gridlay
Without --unproved the program is proved and built first, where it is not yet; that takes more than an hour.
GRIDLAY_PROGRAM=PATH takes a program that is built elsewhere.
GRIDLAY_JOBS=N proves with N searches side by side; without it as many as processors and memory allow, at most four.
README.md tells more, and docs/FORMAT.md how a FILE is written.
TEXT
}
