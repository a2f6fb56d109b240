#!/usr/bin/env bash
# Tries the viewer and the playing page in a real browser.
#     view/test.sh [FOLDER [WORD]]
# Screenshots are kept in FOLDER, which should lie outside the repository; without it in a new folder, which is told. With a WORD only
# the checks with it in their names are made.
# Needed are node (18 or later), and Chromium's headless shell (Debian's chromium-headless-shell) or Chromium; BROWSER names another
# one. Nothing is installed here. The boxes are held to those of the program: GRIDLAY_PROGRAM, else the one that ./gridlay built.
# The playing page is tried where view/build_engine.sh has built it; else it is told that this was skipped.
set -euo pipefail

say() { printf 'test: %s\n' "$*" >&2; }

view=$(dirname -- "$(readlink -f -- "${BASH_SOURCE[0]}")")
program=${GRIDLAY_PROGRAM:-$view/../crates/gridlay/out/gridlay}
page=$view/out/play.html

command -v node >/dev/null || {
    say "node is not installed (Debian: nodejs)"
    exit 69
}
browser=${BROWSER:-}
for name in chromium-headless-shell chromium chromium-browser google-chrome; do
    [ -n "$browser" ] || browser=$(command -v "$name" || true)
done
if [ -z "$browser" ]; then
    say "no browser is installed: apt-get install chromium-headless-shell, or BROWSER names one"
    exit 69
fi
if [ ! -x "$program" ]; then
    say "the program is not built: ./gridlay builds it, or GRIDLAY_PROGRAM names another one ($program is none)"
    exit 69
fi
if [ ! -f "$page" ]; then
    page=
elif [ -n "$(find "$view/page" "$view/assemble.sh" -newer "$page" -print -quit)" ]; then
    say "view/out/play.html is older than what it is made of: view/build_engine.sh makes it anew"
    exit 69
fi
shots=${1:-$(mktemp -d -t gridlay-shots-XXXXXX)}
exec node "$view/test/run.mjs" "$browser" "$program" "$view" "$shots" "$page" "${2-}"
