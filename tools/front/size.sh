# shellcheck shell=bash disable=SC2154
# Tests of tools/test_size.sh on a small program that does wrong, and on a real one. (test_front.sh reads this file.)

printf '#!/bin/sh\nprintf "layout 0\\n"\n' >"$room/small"
chmod +x "$room/small"
try "$top/tools/test_size.sh" "$room/small"
wants_status "size: a program that writes something else" 1
wants "size: a program that writes something else: what is told" out "131,072 nodes and an edit                    the status is 0, due is 0; the output is another"
wants "size: a program that refuses nothing" out "131,073 nodes                                the status is 0, due is 2; the output is another"
wants "size: a program that makes nothing" out "200 generated nodes, summed as laid out      the status is 0, due is 0; the output is another"
if [ -n "$real" ]; then
    try "$top/tools/test_size.sh" "$real"
    wants_status "size: 131,072 nodes, one more, and 200 and 2,000 generated ones" 0
else
    skip "tools/test_size.sh on a real program"
fi
