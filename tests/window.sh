# The program reads its folder in whole pages, and what it has read lately it doesn't read again. The calls are seen by strace.
. "$(dirname "${BASH_SOURCE[0]}")/common.sh"

# How many reads of files at a place the program makes with these arguments, the script of the input before them.
reads_of() {
    strace -f -c -e trace=pread64 -o "$room/counts" "$program" "$folder" "${@:2}" <"$1" >"$room/said" 2>"$room/complained"
    status=$?
    reads=0
    while read -r _ _ _ number rest; do
        [[ " $rest" != *' pread64' ]] || reads=$number
    done <"$room/counts"
}

if ! command -v strace >/dev/null || ! strace -o /dev/null true 2>/dev/null; then
    skip 'the calls of the program' 'strace is missing, or may not look at a program'
    finish
fi

folder=$room/window
mkdir "$folder"
printf 'create 0 page\nwrite 0 0 0 616263\nclose 0\n' >"$room/lines"
run_lines() {
    "$program" "$folder" session <"$room/lines" >"$room/said" 2>"$room/complained"
}
run_lines
is 'a first session' 'ok ok 3 ok' "$(echo $(<"$room/said"))"

# The same block is read a thousand times: at each of them the record, its node and its data are held.
{
    echo 'open 0 page'
    for ((number = 0; number < 1000; number++)); do
        echo 'read 0 0 0 9'
    done
    echo 'close 0'
} >"$room/many"
{
    echo 'open 0 page'
    echo 'read 0 0 0 9'
    echo 'close 0'
} >"$room/one"
reads_of "$room/one" session
is 'one read: the status' 0 "$status"
once=$reads
reads_of "$room/many" session
is 'a thousand reads: the status and the replies' '0 1000' "$status $(count_like 'data 3 616263' <"$room/said")"
is 'a thousand reads make no call more than one' "$once" "$reads"

# Each read of a file of the folder asks for a page, or for the rest of one of which a part was given. The loader of the program reads too.
strace -f -y -e trace=pread64 -o "$room/calls" "$program" "$folder" count >"$room/said" 2>"$room/complained"
asked=none elsewhere=none
while IFS= read -r line; do
    [[ $line == */window/* && $line =~ ,\ ([0-9]+),\ ([0-9]+)\)\ *=\ [0-9]+$ ]] || continue
    asked=some
    [ "${BASH_REMATCH[1]}" -le 4096 ] && [ $(((BASH_REMATCH[1] + BASH_REMATCH[2]) % 4096)) = 0 ] || elsewhere=$line
done <"$room/calls"
is 'the reads of a count end where a page does' 'some, none elsewhere' "$asked, $elsewhere elsewhere"
finish
