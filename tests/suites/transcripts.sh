#!/usr/bin/env bash
# Runs the cases of tests/transcripts/rules: in each, what a script is and what is written, line by line.
#
#   == TITLE      a case begins, over no index file
#   -- TITLE      another run over the same file
#   > LINE        a line of the script
#   >> LINE       the same with the escapes of printf, as \r
#   >| LINE       the last line of the script, with no line feed; >>| with escapes
#   status N      the status of the run, where it is not 0
#
# All other lines are replies, without the line `end` of each. `#` begins a comment.
set -u
. "$(dirname "$0")/../lib/checks.sh"
cd "$top" || exit 2
title=

begin() {
    title=$1
    due_status=0
    : > "$files/script"
    : > "$files/due"
}

finish() {
    local status
    [ -n "$title" ] || return
    [ ! -s "$files/due" ] || echo end >> "$files/due"
    "$program" "$files/index" < "$files/script" > "$files/replies" 2> "$files/errors"
    status=$?
    if [ "$status" -eq "$due_status" ] && cmp -s "$files/replies" "$files/due"; then
        passed=$((passed + 1))
    else
        echo "$title: status $status"
        diff "$files/due" "$files/replies"
        failed=$((failed + 1))
    fi
    title=
}

for transcript in tests/transcripts/rules/*.transcript; do
    while IFS= read -r line; do
        case $line in
            '== '*)
                finish
                rm -f "$files/index"
                begin "${line#== }"
                ;;
            '-- '*)
                finish
                begin "${line#-- }"
                ;;
            '>') echo >> "$files/script" ;;
            '> '*) printf '%s\n' "${line#> }" >> "$files/script" ;;
            '>> '*) printf '%b\n' "${line#>> }" >> "$files/script" ;;
            '>| '*) printf '%s' "${line#>| }" >> "$files/script" ;;
            '>>| '*) printf '%b' "${line#>>| }" >> "$files/script" ;;
            'status '*) due_status=${line#status } ;;
            'ok '* | 'refused '*)
                [ ! -s "$files/due" ] || echo end >> "$files/due"
                printf '%s\n' "$line" >> "$files/due"
                ;;
            '' | '#'*) ;;
            *) printf '%s\n' "$line" >> "$files/due" ;;
        esac
    done < "$transcript"
    finish
done

tell transcripts
