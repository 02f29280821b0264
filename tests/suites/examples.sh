#!/usr/bin/env bash
# Runs the scripts of each folder of examples/ and of tests/transcripts/ over one index file, a new one or a copy of its own,
# and compares the replies.
set -u
. "$(dirname "$0")/../lib/checks.sh"
cd "$top" || exit 2

for example in examples/*/ tests/transcripts/*/; do
    index=$files/$(basename "$example")
    [ ! -f "$example/index.dg" ] || cp "$example/index.dg" "$index"
    for script in "$example"*.script; do
        [ -f "$script" ] || continue
        "$program" "$index" < "$script" > "$files/replies"
        same "$script" "$files/replies" "${script%.script}.replies"
    done
done
tell examples
