# Puts one page together, which holds all that it needs; read by `picture` and `build_engine.sh`, not run.
# shellcheck shell=bash

# A file as a data block of the page. In base64 no text can end the block, or be read as anything else.
data_block() { # ID FILE
    printf '<script type="text/plain" id="%s">' "$1"
    base64 -w 0 <"$2"
    printf '</script>\n'
}

# The head of a page: the policy says that nothing is asked of the network, and that no script runs but those marked here.
page_head() { # MORE-POLICY
    cat <<HEAD
<!doctype html>
<html lang="en">
<meta charset="utf-8">
<meta name="viewport" content="width=device-width, initial-scale=1">
<meta http-equiv="Content-Security-Policy" content="default-src 'none'; style-src 'unsafe-inline'; img-src data:; script-src 'nonce-gridlay'$1">
<link rel="icon" href="data:,">
<title>gridlay</title>
<style>
HEAD
}

# The scripts of a page, each in an element of its own: those of the viewer, in the order in which they stand on each
# other, and more.
page_scripts() { # FOLDER NAME..
    local folder=$1 name
    shift
    for name in text faults document tree printed scene run caption draw view stage rows list side pointer controls viewer "$@"; do
        printf '<script nonce="gridlay">\n'
        cat "$folder/$name.js"
        printf '</script>\n'
    done
}
