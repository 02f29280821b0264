#!/usr/bin/env bash
# The program over real files: which it takes, which it refuses, and what a stop leaves.
set -u
. "$(dirname "$0")/../lib/checks.sh"
cd "$files" || exit 2

history='create 2 2 intersection\nload 3\n10 +node 1\n20 +node 2\n30 +edge 5 1 2 dir\n'
made='ok create\nok load 3 3 30'

check 'a file that is not there is made' 0 "$made" "$history" index
check 'a file is opened again' 0 'ok at 1 0\nok list 1 3\nnode 1\nnode 2\nedge 5 1 2 dir' 'at 30 s\nlist 1\n' index
check 'an empty script makes an empty file' 0 '' '' empty
same 'an empty script makes an empty file' empty /dev/null

# The header and the gate have 18 bytes; the segment has its two sizes, 116 bytes with a row for a list and one for the
# piece, the columns of these, 42 and 40 bytes, and the next gate.
[ "$(stat -c %s index)" -eq 233 ]
passes 'the first file has the bytes of its parts' $? 0

# A batch with the names `name`, `A` and `B C`: a directory of 226 bytes, with rows for a list, three deltas and the piece,
# columns of 74, 26, 0, 58 and 34 bytes, and 17 more.
cp index named
check 'a batch is appended' 0 'ok append 2 5 50' 'append 2\n40 nset 1 name A\n50 nset 2 name B C\n' named
check 'the file has the bytes of its parts' 0 'refused 6 bad-change 1 1' 'append 1\n50 nset 1 other X\n' named
if [ "$(stat -c %s named)" -eq 668 ]; then
    passed=$((passed + 1))
else
    echo "the appended file has $(stat -c %s named) bytes"
    failed=$((failed + 1))
fi
cp named named.copy
check 'values are opened again' 0 'ok at 1 0\nok list 1 5\nnode 1\nnode 2\nedge 5 1 2 dir\nnattr 1 name A\nnattr 2 name B C' \
    'at 50 sn\nlist 1\n' named
same 'reading and refused batches leave the file' named named.copy
# The second name stands at byte 285, and the first one at 279.
cp named broken && printf '\n' | dd of=broken bs=1 seek=285 conv=notrunc status=none
check 'a name with a line feed' 7 '' 'at 50 sn\n' broken
cp named broken && printf ' ' | dd of=broken bs=1 seek=279 conv=notrunc status=none
check 'a key with a space' 7 '' 'at 50 sn\n' broken
cp named broken && printf 'B' | dd of=broken bs=1 seek=285 conv=notrunc status=none
check 'another value' 0 'ok at 1 0\nok list 1 5\nnode 1\nnode 2\nedge 5 1 2 dir\nnattr 1 name B\nnattr 2 name B C' \
    'at 50 sn\nlist 1\n' broken

# Behind the line of the status stands what was wrong with the file, in the system's words where these are the reason.
mkdir folder
check 'a directory' 5 '' 'list 1\n' folder
says 'a directory' 'the index file failed' 'folder: Is a directory (os error 21)'
check 'a path with no folder' 5 '' 'list 1\n' nowhere/index
says 'a path with no folder' 'the index file failed' 'nowhere/index: No such file or directory (os error 2)'
check 'a path that is not UTF-8' 2 '' 'list 1\n' $'in\xffdex'

echo 'a text of more than eighteen bytes' > text && cp text text.copy
check 'a file of another program' 7 '' "$history" text
says 'a file of another program' 'the index is refused' 'text: foreign: it is no index of this program; name an index, or a file that is not there yet'
same 'a file of another program' text text.copy
for size in 1 17; do
    head -c "$size" text.copy > blank
    check "a file of $size bytes is blank" 0 "$made" "$history" blank
    same "a file of $size bytes is blank" blank index
done
head -c 18 text.copy > blank
check 'a file of 18 bytes whose first is not 1 is blank' 0 "$made" "$history" blank
same 'a file of 18 bytes whose first is not 1 is blank' blank index

head -c 232 index > short && cp short short.copy
check 'a file that is too short' 7 '' 'at 30 s\n' short
says 'a file that is too short' 'the index is refused' 'short: damaged at offset 18: the segment there breaks the format; restore the file from a copy'
same 'a file that is too short' short short.copy
cp index closed && printf '\a' | dd of=closed bs=1 seek=17 conv=notrunc status=none
check 'a gate of 7 is closed' 0 'refused 7 out-of-range empty' 'at 30 s\n' closed
cp index wrong && printf '\a' | dd of=wrong bs=1 seek=164 conv=notrunc status=none && cp wrong wrong.copy
check 'a column in no spelling' 7 '' 'at 30 s\n' wrong
same 'a column in no spelling' wrong wrong.copy

# A record that the start does not enter may be damaged: what a plan enters is named, and the session goes on. The
# number of the events of the first list stands at bytes 303 to 306. The start enters the top, whose first node has
# its kind at byte 427.
five='create 2 2 intersection\nload 5\n10 +node 1\n20 +node 2\n30 +edge 5 1 2 dir\n40 nset 1 name A\n50 -edge 5\n'
check 'five changes' 0 'ok create\nok load 5 5 50' "$five" five
cp five broken && printf '\3' | dd of=broken bs=1 seek=306 conv=notrunc status=none && cp broken broken.copy
check 'a damaged record is named where a plan enters it' 0 \
    'refused 15 damaged list 0 s\nok at 1 26\nrefused 15 damaged list 0 s\nok list 1 2\nnode 1\nnode 2' \
    'at 10 s\nat 20 s\nseveral s 20 10\nlist 1\n' broken
check 'a tree that does not enter it goes round it' 0 'ok several 66 66\nhandle 1 20 26\nhandle 2 30 40' \
    'several s 20 30\n' broken
same 'a damaged record is named where a plan enters it' broken broken.copy
cp five broken && printf '\3' | dd of=broken bs=1 seek=427 conv=notrunc status=none && cp broken broken.copy
check 'a damaged record that the start enters' 7 '' 'at 30 s\n' broken
same 'a damaged record that the start enters' broken broken.copy

# No count is trusted, and no byte is left over: a column whose count says more, or less, than there is, is damaged. It is
# never want of memory. Lists are named by the command that enters them. Each number of events has four bytes: those of
# the first list begin at byte 303, those of the second one at 345, and at 385 for its node attributes.
altered() {
    cp five broken && printf "$2" | dd of=broken bs=1 seek="$1" conv=notrunc status=none && cp broken broken.copy
}
damaged() {
    altered "$1" "$2"
    check "a count with $2 at byte $1" 0 "$3" "$4" broken
    same "a count with $2 at byte $1" broken broken.copy
}
for count in '303 \377' '306 \1' '306 \0' '306 \3'; do
    damaged $count 'refused 15 damaged list 0 s\nok at 1 26' 'at 10 s\nat 20 s\n'
    damaged $count 'ok verify unsound list 0 s' 'verify\n'
done
for count in '345 \377' '348 \2' '348 \0'; do
    damaged $count 'refused 15 damaged list 1 s\nok at 1 0' 'at 30 s\nat 50 s\n'
    damaged $count 'ok verify unsound list 1 s' 'verify\n'
done
for count in '385 \377' '388 \2' '388 \0'; do
    damaged $count 'refused 15 damaged list 1 n\nok at 1 40' 'at 30 sn\nat 30 s\n'
    damaged $count 'refused 15 damaged list 1 n\nrefused 24 not-indexed' 'index name\nfind 40 name A\n'
    damaged $count 'refused 15 damaged list 1 n\nok interval 1 82\nok interval 2 42' \
        'interval 20 40 sn\ninterval 20 40 s\ninterval 20 21 sn\n'
    damaged $count 'ok verify unsound list 1 n' 'verify\n'
done
# The instant of the value in the second list ends at byte 398. Outside of the instants of its list, 30 to 40, it is damaged
# for an index, which rests on these; an interval takes it as it is. Within them it is another history's.
altered 398 ')'
check 'a value outside of the instants of its list' 0 \
    'refused 15 damaged list 1 n\nrefused 24 not-indexed\nok interval 1 74\nok list 1 1\nnattr 1 name A' \
    'index name\nfind 50 name A\ninterval 40 51 sn\nlist 1\n' broken
altered 398 '\36'
check 'a value at another instant of its list' 0 'ok index 1 34\nok find 1\nnode 1\nok verify unsound list 1 s' \
    'index name\nfind 30 name A\nverify\n' broken
# The start enters the recent piece, the top, and the way down to the last leaf. Their counts begin at the bytes 503; 419
# and 423; 445 and 449, and for node attributes 479 and 483. The kind of the piece's event stands at byte 517, and whether
# its edge is directed at 542. The last element of the top, node 2, begins at byte 436; with node 3 in its place the graph
# to which these lead has an edge without an end.
for byte in '503 \377' '506 \2' '506 \0' '517 \5' '542 \2' '419 \377' '423 \377' '426 \1' '426 \3' '436 \3' '444 \3' \
    '445 \377' '449 \377' '452 \0' '479 \377' '483 \377' '486 \2' '486 \0'; do
    altered $byte
    check "the start refuses ${byte#* } at byte ${byte% *}" 7 '' 'at 30 s\n' broken
    same "the start refuses ${byte#* } at byte ${byte% *}" broken broken.copy
done

# Which damage it is, said on standard error: the id of the edge that the recent event removes ends at byte 525, and with
# another id that event is none that a change comes to.
refused_by() {
    altered "$1" "$2"
    check "$3" 7 '' 'at 30 s\n' broken
    says "$3" 'the index is refused' "broken: $3"
}
refused_by 503 '\377' 'damaged in record piece 0, column s; restore the file from a copy'
refused_by 427 '\3' 'damaged in record top 1, column s; restore the file from a copy'
refused_by 479 '\377' 'damaged in record down 1 2, column n; restore the file from a copy'
refused_by 444 '\3' 'damaged: the records of the last leaf come to no graph; restore the file from a copy'
refused_by 525 '\6' 'damaged at event 5: it is none that a change comes to; restore the file from a copy'

# `verify` names the first record that is not what the events of the file determine, also where no start enters it. In
# the file of five changes the columns of the second list begin at byte 345, and its node attributes at byte 385; the
# last instant of the first list in the directory ends at byte 90, and the first instant of the batch at byte 49.
check 'a sound file' 0 'ok verify sound 5' 'verify\n' five
unsound() {
    cp five broken && printf "$2" | dd of=broken bs=1 seek="$1" conv=notrunc status=none && cp broken broken.copy
    check "byte $1 is not right" 0 "ok verify unsound $3" 'verify\n' broken
    same "byte $1 is not right" broken broken.copy
}
unsound 306 '\3' 'list 0 s'
unsound 344 '\3' 'list 1 s'
unsound 418 '\3' 'list 1 n'
unsound 90 '\25' 'list 0 s'
unsound 49 '\11' 'piece 0 s'
# With `--checked` a file that is not sound is refused before anything of the script is read.
checked() {
    printf '%b' "$4" | "$program" --checked "$5" > replies 2> errors
    passes "checked: $1" $? "$2"
    printf '%b' "$3" > due
    same "checked: $1" replies due
}
refused_if_checked() {
    cp five broken && printf "$2" | dd of=broken bs=1 seek="$1" conv=notrunc status=none && cp broken broken.copy
    checked "byte $1 is not right" 7 '' 'tree\nverify\n' broken
    same "checked: byte $1 is not right" broken broken.copy
}
checked 'a sound file' 0 'ok verify sound 5\nend\nok at 1 26\nend\n' 'verify\nat 20 s\n' five
refused_if_checked 306 '\3'
says 'checked: a record that is not right' 'the index is refused' \
    'broken: unsound at record list 0, column s: it is not what the events of the file determine; dump its events, and load them into a new file'
refused_if_checked 344 '\3'
refused_if_checked 418 '\3'
refused_if_checked 90 '\25'
refused_if_checked 49 '\11'
refused_if_checked 427 '\3'
checked 'a file of another program' 7 '' "$history" text
same 'checked: a file of another program' text text.copy
checked 'a file that is not there is made' 0 'ok create\nend\nok load 3 3 30\nend\n' "$history" checked_index
same 'checked: a file that is not there is made' checked_index index

# With one event more the piece of five changes is an older one, which no start reads.
cp five six
check 'a sixth change' 0 'ok append 1 6 60' 'append 1\n60 +node 9\n' six
cp six broken && printf '\0' | dd of=broken bs=1 seek=542 conv=notrunc status=none
check 'an older piece that is not right' 0 'ok verify unsound piece 0 s' 'verify\n' broken
checked 'an older piece that is not right' 7 '' 'verify\n' broken

# The words are what `[--cache N] [--checked] INDEX` takes. With others nothing is touched, nor made.
mkdir words && cp five words/five && cd words || exit 2
worded() {
    printf 'at 20 s\n' | "$program" "${@:2}" > ../replies 2> ../errors
    passes "words: ${*:2}" $? "$1"
}
for words in '--checked five' 'five --checked' '--checked -- five' '-- five' './five' '--cache 5 five' 'five --cache 5' \
    '--cache=5 five' '--cache 0 five' '--cache 65536 five' '--cache 05 five' '--cache +5 five' '--cache 1 --checked five' \
    '--checked five --cache=1' '--cache 5 -- five'; do
    worded 0 $words
    printf 'ok at 1 26\nend\n' > ../due
    same "words: $words" ../replies ../due
done
worded 5 ''
worded 5 nowhere/five
worded 2
for words in 'five six' '--checked' '--' '--checked --checked five' '--checked=yes five' '--checked= five' '--che five' \
    '--cache five' 'five --cache' '--cache 65537 five' '--cache -1 five' '--cache=-1 five' '--cache= five' '--cache x five' \
    '--cache 5k five' '--cache 18446744073709551617 five' '--cache 1 --cache 2 five' '--cac 5 five' '--cache --checked five' \
    '--cache 5' '--help' '-h' '--version' '-V' '-x' '-c five' 'five --checked six'; do
    worded 2 $words
    printf 'deltagraph: usage: deltagraph [--cache N] [--checked] INDEX\n' > ../due
    same "words: $words" ../errors ../due
done
worded 2 $'fi\xffve'
same 'with wrong words nothing is changed' five ../five
[ "$(ls -A)" = five ]
passes 'with wrong words nothing is made' $? 0
for words in '-' '-- -x' '-- --checked'; do
    worded 0 $words
done
[ "$(LC_ALL=C ls -A | tr '\n' ' ')" = '- --checked -x five ' ]
passes 'a lone dash, and any word behind two, is an index' $? 0
cd ..

# A run with a standard descriptor closed. The index file is not read or written in its place: a closed
# input is one that cannot be read, and a closed output one that cannot be written.
ask='at 30 s\nlist 1\n'
printf '%b' "$ask" > ask
cp index kept
"$program" index < ask >&- 2> errors
passes 'standard output closed' $? 4
same 'standard output closed' index kept
"$program" index <&- > replies 2> errors
passes 'standard input closed' $? 3
same 'standard input closed' index kept
"$program" index < ask > replies 2>&-
passes 'standard error closed' $? 0
printf 'ok at 1 0\nend\nok list 1 3\nnode 1\nnode 2\nedge 5 1 2 dir\nend\n' > due
same 'standard error closed' replies due
same 'standard error closed' index kept
"$program" index <&- >&- 2>&-
passes 'all three closed' $? 3
same 'all three closed' index kept
printf '%b' "$history" | "$program" made >&- 2> errors
passes 'an index is made with standard output closed' $? 4
check 'and is one whose first command was not answered' 0 'refused 3 index-exists' 'create 2 2 union\n' made

# A standard error that takes no line changes no status.
"$program" a b < ask 2> /dev/full
passes 'wrong words, and standard error is full' $? 2
"$program" a b < ask 2>&-
passes 'wrong words, and standard error is closed' $? 2
"$program" text < ask 2> /dev/full
passes 'a file of another program, and standard error is full' $? 7
same 'a file of another program, and standard error is full' text text.copy

# Wrong words are wrong words, whatever else is wrong. The loader of the program needs one descriptor.
with_four_descriptors() {
    (
        exec < ask 2> errors
        ulimit -n 4 || exit
        exec "$program" "$@"
    )
}
with_four_descriptors a b
passes 'wrong words, and no descriptor is left' $? 2
with_four_descriptors index
passes 'no descriptor is left' $? 5
says 'no descriptor is left' 'the index file failed' \
    'standard input, output and error: Too many open files (os error 24)'

# Statuses of failures that a file shows.
"$program" index < folder > replies 2> errors
passes 'a script that cannot be read' $? 3
says 'a script that cannot be read' 'reading the script failed'
"$program" index < ask > /dev/full 2> errors
passes 'replies that cannot be written' $? 4
says 'replies that cannot be written' 'writing failed'
same 'replies that cannot be written' index kept
"$program" index < ask > replies 2> errors
[ ! -s errors ]
passes 'a run to the end says nothing on standard error' $? 0

# Memory that lacks. A run over a small file does with 3,500 of these 6,000 KiB; one over a history of 100,000 events takes
# more than 7,500. Where they lack before the first command, the run ends by that, and within a command it alone is
# refused.
with_little_memory() {
    (
        ulimit -v 6000 || exit
        exec "$program" "$1" < script > replies 2> errors
    )
}
printf 'pool\n' > script
with_little_memory index
passes 'little memory, and a small file' $? 0
printf 'ok pool 0 3\nend\n' > due
same 'little memory, and a small file' replies due
check 'a history of 100,000 events' 0 'ok create\nok workload 100000 50999 25000 6250' \
    'create 1024 4 union\nworkload 7 100000\n' large
cp large large.copy
with_little_memory large
passes 'little memory, and a large file' $? 6
same 'little memory, and a large file' replies /dev/null
says 'little memory, and a large file' 'out of memory'
same 'little memory, and a large file' large large.copy
printf 'create 1024 4 union\nworkload 7 100000\npool\n' > script
with_little_memory little
passes 'little memory, and a large batch' $? 0
printf 'ok create\nend\nrefused 16 out-of-memory\nend\nok pool 0 0\nend\n' > due
same 'little memory, and a large batch' replies due
check 'a large batch that was refused left nothing' 0 'ok verify sound 0\nok workload 8 1003 2 1' \
    'verify\nworkload 7 8\n' little

# A run, and each of its threads, does with half of the stack that the system gives at first, 128 KiB, whatever the
# command. The environment would come on top.
with_little_stack() {
    (
        ulimit -s 64 || exit
        exec env -i "$program" "$@" < script > replies 2> errors
    )
}
{
    printf 'at 30000 sne\nseveral sne'
    printf ' %s' $(seq 1000 1500 47500)
    printf '\nmaterialise leaf 10 sne\nmaterialise inner 2 1 s\nplan 30000 sne\ncertify 30000 sne 1\nstep 1 now 0\n'
    printf 'verify\ntree\nlist 1\nlist 34\ncounts 1\nnode 1 5\nneighbours 1 5\nrelease 2\nclean 5\nclean all\npool\nno\n'
    printf 'expression sne and 30000 not 20000\ninterval 10000 40000 snet\nlist 36\nlist 37\nindex kind\nfind 30000 kind v1\n'
    printf 'append 2\n60000 +node 1000000\n60001 nset 1000000 kind v1\nappend 1\n70000 +node 1\nfind 60001 kind v1\n'
} > asked
{ printf 'create 1024 4 union\nworkload 7 100000\n' && cat asked; } > script
"$program" --checked deep < script > due
with_little_stack shallow
passes 'little stack, and a new file' $? 0
same 'little stack, and a new file' replies due
same 'little stack, and a new file, which it leaves' shallow deep
cp large deep && cp asked script
"$program" deep < script > due
with_little_stack --checked large
passes 'little stack, and a file that is checked' $? 0
same 'little stack, and a file that is checked' replies due
same 'little stack, and a file that is checked, which it leaves' large deep
packages=$top/examples/debian_packages
cp "$packages/1.script" script
with_little_stack packages
passes 'little stack, and a load' $? 0
same 'little stack, and a load' replies "$packages/1.replies"

# A line of 4,096 bytes is read, and one of 4,097 is not, nor skipped.
{ head -c 4096 /dev/zero | tr '\0' a; printf '\r\n'; } > long
{ head -c 4097 /dev/zero | tr '\0' '#'; printf '\ncreate 2 2 union\nload 1\n5 +node '; head -c 4097 /dev/zero | tr '\0' 1; } >> long
"$program" lines < long > replies 2> errors
passes 'lines of 4,096 and 4,097 bytes' $? 0
printf 'refused 1 syntax 2\nend\nrefused 18 line-long\nend\nok create\nend\nrefused 6 bad-change 1 10\nend\n' > due
same 'lines of 4,096 and 4,097 bytes' replies due

# A value of 1,024 bytes is taken, and one of 1,025 is not. In UTF-8 a letter with an accent has two bytes.
value=$(head -c 1024 /dev/zero | tr '\0' v)
check 'a value of 1,024 bytes' 0 "ok create\nok load 2 2 2\nok at 1 0\nok list 1 2\nnode 1\nnattr 1 k $value" \
    "create 2 2 union\nload 2\n1 +node 1\n2 nset 1 k $value\nat 2 sn\nlist 1\n" values
check 'a value of 1,025 bytes' 0 'refused 6 bad-change 1 10\nrefused 6 bad-change 1 10' \
    "append 1\n3 nset 1 k ${value}v\nappend 1\n3 eset 1 k ${value}v\n" values
accents=$(printf 'é%.0s' {1..512})
check 'a value of 512 letters of two bytes' 0 'ok append 1 3 3\nrefused 6 bad-change 1 10' \
    "append 1\n3 nset 1 k $accents\nappend 1\n4 nset 1 k ${accents}v\n" values

# Each write that has to outlive a crash is synced: the file and its folder at the start, three for a new index,
# two a batch.
if strace -f -o calls true 2> errors; then
    printf '%b' "$history" | strace -f -o calls -e trace=fsync,fdatasync "$program" synced > replies 2> errors
    [ "$(grep -cE '(fsync|fdatasync)\(.*= 0' calls)" -eq 7 ]
    passes 'syncs of an index and a batch' $? 0
    # The last read of this run is that of the plan's record. Where it fails, the command says so, and the next one is
    # answered.
    printf 'at 20 s\n' | strace -f -o calls -e trace=pread64 "$program" five > replies 2> errors
    last=$(grep -c pread64 calls)
    printf 'at 20 s\nat 20 s\nlist 1\n' |
        strace -f -o calls -e trace=pread64 -e inject=pread64:error=EIO:when="$last" "$program" five > replies 2> errors
    passes 'a failed read' $? 0
    printf 'refused 14 store-read\nend\nok at 1 26\nend\nok list 1 2\nnode 1\nnode 2\nend\n' > due
    same 'a failed read' replies due
else
    echo 'no strace here: the syncs are not counted, and no read fails'
fi

# A file is cut under a run, once that has answered, so that the lists are gone: a read past the end fails, and refuses its
# command alone.
cp five cut && mkfifo asks
"$program" cut < asks > replies 2> errors &
exec 3> asks
printf 'at 20 s\n' >&3
for _ in $(seq 100); do
    [ -s replies ] && break
    sleep 0.1
done
truncate -s 303 cut
printf 'at 10 s\nat 50 s\nlist 1\n' >&3
exec 3>&-
wait $!
passes 'a file that is cut' $? 0
printf 'ok at 1 26\nend\nrefused 14 store-read\nend\nok at 2 0\nend\nok list 1 2\nnode 1\nnode 2\nend\n' > due
same 'a file that is cut' replies due

# A load is stopped at many moments: what is there then is the history before it or after it.
{ printf 'load 20000\n'; for i in $(seq 20000); do echo "$i +node $i"; done; } > load
for tenths in $(seq 0 2 30); do
    rm -f stopped
    printf 'create 2 2 union\n' | "$program" stopped > /dev/null
    { "$program" stopped < load > /dev/null & } 2> /dev/null
    sleep "0.0$(printf '%02d' "$tenths")"
    kill -9 $! 2> /dev/null
    wait $! 2> /dev/null
    reply=$(printf 'at 20000 s\n' | "$program" stopped | head -n 1)
    case $reply in
        'ok at 1 0' | 'refused 7 out-of-range empty') passed=$((passed + 1)) ;;
        *)
            echo "stopped: $reply"
            failed=$((failed + 1))
            ;;
    esac
done

# How many bytes are read of the file of docs/FORMATS.md: its start reads 428, the graph as of instant 20 has 26 behind it
# and that of instant 10 has 42, and what commands read is kept in memory and not read again. What the start reads is not kept.
reads() {
    printf "$2" | strace -f -P five -e trace=pread64 -o trace "$program" "${@:3}" > replies 2> errors
    [ "$(awk '/pread64/ { sum += $NF } END { print sum }' trace)" -eq "$1" ]
    passes "bytes read: ${*:2}" $? 0
}
if strace -o trace true 2> errors; then
    reads 428 '' five
    reads 454 'at 20 s\n' five
    reads 480 'at 20 s\nat 20 s\n' five
    reads 512 'at 10 s\nat 10 s\n' five
    reads 454 'at 20 s\nat 20 s\n' --cache 4 five
    reads 470 'at 10 s\nat 10 s\n' --cache 4 five
    printf 'ok at 1 42\nend\nok at 2 42\nend\n' > due
    same 'two retrievals of one instant with a cache' replies due
else
    echo 'how many bytes are read is left out: there is no strace'
fi

tell files
