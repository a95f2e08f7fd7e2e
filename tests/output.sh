# What the program prints is gathered, and written when a text has come to its end: a reply is one call, and none waits for the next line.
. "$(dirname "${BASH_SOURCE[0]}")/common.sh"

folder=$room/output
mkdir "$folder"

# Runs a session over the lines of a file.
play() {
    timeout 60 "$program" "$folder" session <"$1" >"$room/said" 2>"$room/complained"
    status=$?
}

# Each text is there before the next line is given: a reply of one line, the rows of a list, data of more bytes than are gathered, and a fault.
data=$(printf '61%.0s' $(seq 3000))
coproc talk { "$program" "$folder" session 2>"$room/complained"; }
talk_in=${talk[1]} talk_out=${talk[0]} talk_id=$talk_PID
asked() {
    echo "$1" >&"$talk_in"
    read -r -t 20 reply <&"$talk_out"
}
asked 'create 0 page'
is 'a reply comes before the next line' ok "$reply"
asked "write 0 0 0 $data"
is 'so does the next' 'ok 3000' "$reply"
asked 'read 0 0 0 3000'
is 'so do data of more bytes than are gathered' "data 3000 $data" "$reply"
asked 'list'
rows=$reply
read -r -t 20 reply <&"$talk_out"
is 'so do the rows of a list' 'main page 3000 0 0, end 1' "$rows, $reply"
asked 'fly'
is 'so does a fault of a line' 'fault 5 2 UnknownWord' "$reply"
eval "exec $talk_in>&-"
wait "$talk_id"
is 'a fault of a line is a refusal' 1 $?

# Who reads only the first replies has a prefix of them: what the output failed in is not continued.
{
    echo 'open 0 page'
    for ((number = 0; number < 40; number++)); do
        echo "read 0 0 $number 3000"
    done
    echo 'close 0'
} >"$room/lines"
play "$room/lines"
whole=$(base64 -w0 "$room/said")
front=$({
    "$program" "$folder" session <"$room/lines" 2>"$room/complained"
    echo $? >"$room/status"
} | head -c 100000 | base64 -w0)
is 'an output that is closed midway' 5 "$(cat "$room/status")"
is 'what was read of it is a front' "$front" "$(head -c 100000 "$room/said" | base64 -w0)"
is 'the whole is longer' yes "$([ ${#whole} -gt ${#front} ] && echo yes)"

# An input and an output that were made not to block are waited for: the input has a line now and then, and nobody reads the output at first.
mkfifo "$room/into" "$room/out_of"
exec 5<>"$room/into" 6<>"$room/out_of"
exec 7<"$room/into" 8>"$room/out_of" 9<"$room/out_of"
dd iflag=nonblock count=0 status=none <&7
dd oflag=nonblock count=0 status=none >&8
is_nonblocking() {
    local name value
    while read -r name value; do
        [ "$name" != flags: ] || [ $((8#${value#0} & 2048)) = 0 ] || return 0
    done 2>/dev/null <"/proc/$BASHPID/fdinfo/$1"
    return 1
}
if is_nonblocking 7 && is_nonblocking 8; then
    rm -rf "$room/waits" "$room/other"
    cp -a "$folder" "$room/waits"
    cp -a "$folder" "$room/other"
    timeout 60 "$program" "$room/other" session <"$room/lines" >"$room/said" 2>"$room/complained"
    {
        sleep 0.2
        head -n 1 "$room/lines"
        sleep 0.2
        tail -n +2 "$room/lines"
    } 7<&- 8>&- 9<&- 6>&- >&5 &
    (
        timeout 60 "$program" "$room/waits" session <&7 5>&- 6>&- 9<&- >&8 2>"$room/complained"
        echo $? >"$room/status"
    ) 5>&- 6>&- 9<&- &
    exec 5>&- 6>&- 7<&- 8>&-
    sleep 1
    cat <&9 >"$room/waited"
    wait
    is 'streams that do not block: the status, and all replies' '0 same' "$(cat "$room/status" "$room/complained") $(are_same "$room/said" "$room/waited" && echo same)"
else
    skip 'streams that do not block' 'dd or /proc cannot make and tell them'
fi
exec 5>&- 6>&- 7<&- 8>&- 9<&-

# Who waits so sleeps: it takes next to no processor time, and continues soon once there is a line to read, or room to write. One session waits
# for its input, another one at the same time for its output.
mkfifo "$room/asks" "$room/tells"
exec 5<>"$room/asks" 6<>"$room/tells"
exec 7<"$room/asks" 8>"$room/tells" 9<"$room/tells"
dd iflag=nonblock count=0 status=none <&7
dd oflag=nonblock count=0 status=none >&8
# The processor time of a process, in hundredths of a second.
taken() {
    local stat fields
    stat=$(<"/proc/$1/stat")
    read -r -a fields <<<"${stat##*) }"
    echo $((fields[11] + fields[12]))
}
# How often a process has gone to sleep.
sleeps() {
    local name value
    while read -r name value; do
        [ "$name" != voluntary_ctxt_switches: ] || echo "$value"
    done <"/proc/$1/status"
}
# Gives the session a line, and leaves after how many microseconds its reply was there.
answered() {
    local from=${EPOCHREALTIME/./}
    echo total >&5
    read -r -t 20 reply <&"$waiter_out"
    took=$((${EPOCHREALTIME/./} - from))
}
if is_nonblocking 7 && is_nonblocking 8 && [ -r /proc/self/stat ]; then
    for it in waits other reads writes; do
        rm -rf "${room:?}/$it"
    done
    cp -a "$folder" "$room/other"
    cp -a "$folder" "$room/reads"
    cp -a "$folder" "$room/writes"
    timeout 60 "$program" "$room/other" session <"$room/lines" >"$room/said" 2>"$room/complained"
    coproc waiter { exec "$program" "$room/reads" session <&7 5>&- 6>&- 8>&- 9<&- 2>"$room/complained"; }
    # (bash closes its own once the program has ended)
    exec {waiter_out}<&"${waiter[0]}"
    waiter_id=$waiter_PID
    "$program" "$room/writes" session <"$room/lines" >&8 5>&- 6>&- 7<&- 9<&- 2>"$room/complained" &
    writer_id=$!
    exec 6>&- 7<&- 8>&-
    answered
    is 'a session whose input does not block replies' 'total 1 3004' "$reply"
    before=($(taken "$waiter_id") $(taken "$writer_id") $(sleeps "$waiter_id") $(sleeps "$writer_id"))
    sleep 1.1
    after=($(taken "$waiter_id") $(taken "$writer_id") $(sleeps "$waiter_id") $(sleeps "$writer_id"))
    for it in 0 1; do
        spent=$((after[it] - before[it]))0 slept=$((after[it + 2] - before[it + 2]))
        is "while it waits for its $([ "$it" = 0 ] && echo input || echo output) it sleeps, and takes no tenth of the processor time" yes \
            "$([ "$spent" -lt 110 ] && [ "$slept" -ge 4 ] && echo yes || echo "$spent ms of 1100, and $slept sleeps")"
    done
    # A sleep that goes on to double would last half a second more by now, each time.
    answered
    first=$took
    sleep 0.55
    answered
    is 'it replies soon once a line is there' yes "$([ "$first" -lt 300000 ] || [ "$took" -lt 300000 ] && echo yes || echo "$first and $took us")"
    exec 5>&-
    wait "$waiter_id"
    is 'it ends with its input' 0 $?
    from=${EPOCHREALTIME/./}
    cat <&9 >"$room/waited"
    took=$((${EPOCHREALTIME/./} - from))
    wait "$writer_id"
    is 'once its output is read it continues: the status, and all replies' '0 same' "$? $(are_same "$room/said" "$room/waited" && echo same)"
    is 'and that soon' yes "$([ "$took" -lt 500000 ] && echo yes || echo "$took us")"
    exec {waiter_out}<&-
else
    skip 'what a wait takes' 'dd or /proc cannot make and tell such streams'
fi
exec 5>&- 6>&- 7<&- 8>&- 9<&-

if ! command -v strace >/dev/null || ! strace -o /dev/null true 2>/dev/null; then
    skip 'the calls of the program' 'strace is missing, or may not look at a program'
    finish
fi

# How long a session sleeps that waits for an input which does not block: 1 ms, then twice as long each time, up to 20 ms.
mkfifo "$room/given"
exec 5<>"$room/given" 7<"$room/given"
dd iflag=nonblock count=0 status=none <&7
if is_nonblocking 7; then
    strace -o "$room/calls" -e trace=nanosleep,clock_nanosleep "$program" "$room/other" session <&7 5>&- >"$room/said" 2>"$room/complained" &
    sleep 0.3
    exec 5>&-
    wait "$!"
    status=$?
    slept=
    while IFS= read -r line; do
        [[ $line =~ tv_sec=([0-9]+),\ tv_nsec=([0-9]+)\} ]] || continue
        slept+="$((BASH_REMATCH[1] * 1000000 + BASH_REMATCH[2] / 1000)) "
    done <"$room/calls"
    is 'how long it sleeps' '0 1000 2000 4000 8000 16000 20000 20000 ' "$status ${slept:0:38}"
    is 'and never longer than 20 ms' 0 "$(tr ' ' '\n' <<<"${slept:26}" | count_unlike '@(|20000)')"
else
    skip 'how long a session sleeps' 'dd or /proc cannot make and tell such an input'
fi
exec 5>&- 7<&-

# How many writes to standard output the program makes with these arguments, the script of the input before them.
writes_of() {
    strace -f -e trace=write,writev -o "$room/calls" "$program" "$folder" "${@:2}" <"$1" >"$room/said" 2>"$room/complained"
    status=$?
    writes=$(count_like '*write?(v)(1, *' <"$room/calls")
}

# A session of a few commands: a text each.
{
    echo 'create 0 small'
    echo "write 0 0 0 ${data:0:4000}"
    echo 'read 0 0 0 2000'
    echo 'close 0'
    echo 'list'
    echo 'fly'
    echo 'total'
} >"$room/few"
writes_of "$room/few" session
is 'a few commands: the status' 1 "$status"
is 'a few commands: a call for each reply' 7 "$writes"

# 2 KiB are 4096 digits, which are more than what is gathered once the start of the line is there.
printf 'open 0 page\nread 0 0 0 2048\nclose 0\n' >"$room/long"
writes_of "$room/long" session
is 'data of 2 KiB: the status' 0 "$status"
is 'data of 2 KiB: two calls, and one for each of the others' 4 "$writes"

# Some hundred rows take a call for each 4096 bytes, a row more or less.
for ((number = 0; number < 300; number++)); do
    printf 'create 0 row%s\nclose 0\n' "$number"
done >"$room/rows"
play "$room/rows"
is 'three hundred entries are made' '0 600' "$status $(count_like ok <"$room/said")"
writes_of /dev/null list
bytes=$(wc -c <"$room/said")
is 'the rows are listed' 'end 302' "$(tail -n 1 "$room/said")"
is 'no more calls than bytes by 4000, and one' yes "$([ "$writes" -le $((bytes / 4000 + 1)) ] && echo yes || echo "$writes for $bytes bytes")"

# Words that print one text make one call, whatever its lines are.
for words in count verify 'inspect index' 'gen 0 1' 'no-word-of-it'; do
    # shellcheck disable=SC2086
    writes_of /dev/null $words
    is "$words: one call" 1 "$writes"
done
finish
