# What the suites in bash share: the program, a folder, and what is counted. Each of them reads this file, and ends with
# `tell NAME`. They are run as tests/run runs them, with a program and a folder of their own.
top=$(cd "$(dirname "${BASH_SOURCE[0]}")/../.." && pwd)
program=$1
files=$2

passed=0
failed=0

# check NAME STATUS REPLIES SCRIPT INDEX: the run ends with this status and writes these replies, one
# line each and without their `end` lines.
check() {
    local replies status
    replies=$(printf '%b' "$4" | "$program" "$5" 2> errors)
    status=$?
    replies=$(grep -v '^end$' <<< "$replies")
    if [ "$status" -eq "$2" ] && [ "$replies" = "$(printf '%b' "$3")" ]; then
        passed=$((passed + 1))
    else
        echo "$1: status $status, replies: $replies"
        failed=$((failed + 1))
    fi
}

# passes NAME STATUS DUE: a run has ended with the status that is due.
passes() {
    if [ "$2" -eq "$3" ]; then
        passed=$((passed + 1))
    else
        echo "$1: status $2, and not $3"
        failed=$((failed + 1))
    fi
}

# says NAME TEXT..: the last run has said these lines on standard error, and nothing else.
says() {
    printf 'deltagraph: %s\n' "${@:2}" > line
    same "$1, on standard error" errors line
}

# same NAME FILE COPY: the file is as its copy.
same() {
    if cmp "$2" "$3"; then
        passed=$((passed + 1))
    else
        echo "$1: the file has changed"
        failed=$((failed + 1))
    fi
}

# tell NAME: how many tests have passed and failed; the status is 0 where none failed.
tell() {
    echo "$1: $passed passed, $failed failed"
    [ "$failed" -eq 0 ]
}
