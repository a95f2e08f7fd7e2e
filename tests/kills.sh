# A session is ended by a signal at some moment, and the folder is opened again: each entry whose last Close was answered, and that no later
# line touched, is there with its bytes. The moments are drawn anew in each run; the seed is told where something fails.
. "$(dirname "${BASH_SOURCE[0]}")/common.sh"

seed=${KILLS_SEED:-$RANDOM$RANDOM}
RANDOM=$((seed % 32768))
entries=40
rounds=60

# The signals, each with the status by which the shell tells it. What a script runs beside ignores INT, and one that is started so may
# ignore any.
signals=(KILL:137 TERM:143 INT:130 HUP:129)
heeding=(env --default-signal=TERM --default-signal=INT --default-signal=HUP)
if ! "${heeding[@]}" true 2>/dev/null; then
    skip 'TERM, INT and HUP' 'env is too old to have them heeded'
    signals=(KILL:137) heeding=(env)
fi

# The bytes that a round writes to an entry, as data: short ones, and some that have a file of their own.
data_of() {
    local round=$1 entry=$2 text=
    printf -v text '%08x' $((round * 1000 + entry))
    local count=$(((round * 7 + entry * 13) % 40 + 1))
    [ $(((round + entry) % 9)) != 0 ] || count=4500
    printf -v text "%${count}s" "$text"
    echo "${text// /$(printf '%02x' $((round % 256)))}"
}

# The lines of the session: in each round each entry is opened, written anew and closed.
declare -a data
for ((round = 0; round < rounds; round++)); do
    for ((entry = 0; entry < entries; entry++)); do
        it=$(data_of "$round" "$entry")
        data+=("$it")
        [ "$round" = 0 ] && word=create || word=open
        printf '%s 0 key/%d\ncut 0 0 0 %s\nclose 0\n' "$word" "$entry" "$it"
    done
done >"$room/lines"

# Ends a session after a while by a signal, and asks for what has to be there: NUMBER SIGNAL:STATUS
killed() {
    local folder=$room/killed-$1 pause answered visits visit entry tries signal=${2%:*} wanted=${2#*:} ended
    mkdir "$folder"
    printf -v pause '%d.%03d' $((RANDOM % 3)) $((RANDOM % 1000))
    # A session that is killed before it has made its output has not the replies of the one before. The other signals wait for a reply: a
    # shell that gets one before it has become the program would clear up the room.
    : >"$room/replies"
    "${heeding[@]}" "$program" "$folder" session <"$room/lines" >"$room/replies" 2>"$room/complained" &
    local session=$!
    sleep "$pause"
    for ((tries = 0; tries < 400; tries++)); do
        [ "$signal" != KILL ] && [ ! -s "$room/replies" ] || break
        sleep 0.05
    done
    kill -s "$signal" "$session" 2>/dev/null
    wait "$session" 2>/dev/null
    ended=$?
    # Only whole lines count: the last may have been cut.
    answered=$(tr -cd '\n' <"$room/replies" | wc -c)
    visits=$((answered / 3))
    told="$1, $signal after $pause s and $answered replies (KILLS_SEED=$seed)"
    [ "$answered" -lt $((3 * rounds * entries)) ] || [ "$ended" != 0 ] || wanted=0
    is "the signal ends it, or it has come to its end, $told" "$wanted" "$ended"
    is "every reply is one of success, $told" 0 "$(head -n "$answered" "$room/replies" | count_unlike 'ok*')"
    # The entry of the visit that was not answered whole may have been touched.
    : >"$room/input"
    : >"$room/wanted"
    for ((entry = 0; entry < entries; entry++)); do
        [ "$entry" != $((visits % entries)) ] || continue
        [ "$visits" -gt "$entry" ] || continue
        visit=$(((visits - 1 - entry) / entries))
        it=${data[visit * entries + entry]}
        printf 'open 0 key/%d\nread 0 0 0 100000\nclose 0\n' "$entry" >>"$room/input"
        printf 'ok\ndata %d %s\nok\n' $((${#it} / 2)) "$it" >>"$room/wanted"
    done
    run "$folder" session
    is "what was closed is there, $told" "0 $(cat "$room/wanted")" "$status $said$complained"
    : >"$room/input"
    run "$folder" list
    is "the folder is listed, $told" 0 "$status$complained"
    rm -rf "$folder"
}
for ((number = 0; number < 12; number++)); do
    killed "$number" "${signals[number % ${#signals[@]}]}"
done

# A session that waits for its next line is ended at once, and leaves no lock; what it closed is there, and what it flushed.
waits=$room/waits
many=$(printf '7a%.0s' {1..20000})
for it in "${signals[@]}"; do
    rm -rf "$waits"
    mkdir "$waits"
    coproc talk { exec "${heeding[@]}" "$program" "$waits" session 2>"$room/complained"; }
    # (bash closes its own once the program has ended)
    exec {talk_in}>&"${talk[1]}" {talk_out}<&"${talk[0]}"
    eval "exec ${talk[1]}>&-"
    talk_id=$talk_PID
    replies=
    for line in 'create 0 a' 'write 0 0 0 616263' 'close 0' 'create 0 b' "write 0 0 0 $many" 'close 0' 'create 1 d' 'write 1 0 0 646566' \
        'flush 1' 'create 0 c' 'write 0 0 0 65'; do
        echo "$line" >&"$talk_in"
        read -r -t 20 reply <&"$talk_out"
        replies+="$reply, "
    done
    is "${it%:*}: a session waits" 'ok, ok 3, ok, ok, ok 20000, ok, ok, ok 3, ok, ok, ok 1, ' "$replies"
    kill -s "${it%:*}" "$talk_id"
    read -r -t 10 reply <&"$talk_out"
    is "${it%:*}: it ends at once, with no further reply" '1 ' "$? $reply"
    exec {talk_in}>&- {talk_out}<&-
    wait "$talk_id" 2>/dev/null
    is "${it%:*}: its status" "${it#*:}" $?
    is "${it%:*}: it prints no error" '' "$(cat "$room/complained")"
    : >"$room/input"
    run "$waits" get a 0
    is "${it%:*}: the next command has the folder, and what was closed is there" $'0 ok\ndata 3 616263\nok' "$status $said$complained"
    run "$waits" get b 0
    is "${it%:*}: so is what has a file of its own" $'0 ok\ndata 20000 7a7a' "$status ${said:0:18}"
    run "$waits" get d 0
    is "${it%:*}: so is what was flushed" $'0 ok\ndata 3 646566\nok' "$status $said$complained"
    run "$waits" verify
    is "${it%:*}: the folder is sound" 0 "$status"
done

# Stops in a row: the same folder is killed again and again, and what was closed in the first session stays.
folder=$room/row
mkdir "$folder"
printf '%s\n' 'create 0 stays' 'write 0 0 0 616263' 'write 0 1 0 646566' 'close 0' >"$room/input"
run "$folder" session
is 'an entry is made' $'0 ok\nok 3\nok 3\nok' "$status $said"
for ((number = 0; number < 6; number++)); do
    while IFS= read -r line; do
        printf '%s\n' "${line/ key\// $number/}"
    done <"$room/lines" >"$room/input"
    "$program" "$folder" session <"$room/input" >"$room/replies" 2>/dev/null &
    session=$!
    sleep "0.$((RANDOM % 900 + 100))"
    kill -9 "$session" 2>/dev/null
    wait "$session" 2>/dev/null
done
: >"$room/input"
run "$folder" get stays 0
is "it stays through six stops (KILLS_SEED=$seed)" $'0 ok\ndata 3 616263\nok' "$status $said"
run "$folder" get stays 1
is "both its streams stay (KILLS_SEED=$seed)" $'0 ok\ndata 3 646566\nok' "$status $said"
finish
