# One process at a time has a folder, by a lock on it that every program can see; subcommands that only read have it beside each other.
. "$(dirname "${BASH_SOURCE[0]}")/common.sh"

# Five entries, which have to be there after all that follows.
folder=$room/folder
mkdir "$folder"
for number in 1 2 3 4 5; do
    printf 'create 0 old%s\nwrite 0 0 0 6f6c64\nclose 0\n' "$number"
done >"$room/input"
run "$folder" session
is 'five entries are made' '0 15' "$status $(count_like 'ok*' <<<"$said")"
: >"$room/input"
old=$'main old5 3 0 0\nmain old4 3 0 0\nmain old3 3 0 0\nmain old2 3 0 0\nmain old1 3 0 0'

# The folder is another process's: 3 at once, nothing is printed and nothing is changed.
is_held() {
    local before
    before=$(both "$folder")
    run "$folder" "${@:2}"
    is "$1, ${*:2}" '3 ' "$status $said$complained"
    is "$1, ${*:2}: the folder" "$before" "$(both "$folder")"
}
words_that_open=(count list 'get old1 0' 'put other 0' 'doom old1' 'trim 0' 'gen 1 5' session)
words_that_read=(verify 'inspect index')

# Beside an open session.
coproc talk { "$program" "$folder" session 2>"$room/talked"; }
talk_in=${talk[1]} talk_out=${talk[0]} talk_id=$talk_PID
asked() {
    echo "$1" >&"$talk_in"
    read -r -t 20 reply <&"$talk_out"
}
asked 'create 0 page'
is 'a session is open' ok "$reply"
asked 'write 0 0 0 6e6577'
is 'and has written' 'ok 3' "$reply"
for words in "${words_that_open[@]}" "${words_that_read[@]}" 'no-word-of-it'; do
    # shellcheck disable=SC2086
    is_held 'beside a session' $words
done
asked 'close 0'
is 'the session goes on' ok "$reply"
eval "exec $talk_in>&-"
wait "$talk_id"
is 'and ends' 0 $?
run "$folder" list
is 'its entry and the old ones are there' "0 main page 3 0 0"$'\n'"$old"$'\nend 6' "$status $said"
run "$folder" get page 0
is 'with its bytes' $'0 ok\ndata 3 6e6577\nok' "$status $said"
run "$folder" doom page
is 'it is removed' '0 ok' "$status $said"

# A session that is killed leaves no lock.
coproc talk { exec "$program" "$folder" session 2>"$room/talked"; }
talk_in=${talk[1]} talk_out=${talk[0]} talk_id=$talk_PID
asked 'create 0 page'
is 'a session is open once more' ok "$reply"
kill -9 "$talk_id"
wait "$talk_id" 2>/dev/null
run "$folder" list
is 'behind a session that was killed' "0 $old"$'\nend 5' "$status $said"

# Many processes at once: each put is done or answers 3, and what was done is there.
puts() {
    local lane=$1 number
    for number in 1 2 3 4 5 6; do
        echo "$lane$number" | timeout 700 "$program" "$folder" put "new$lane$number" 0 >/dev/null 2>&1
        echo "$? new$lane$number"
    done >"$room/lane$lane"
}
four_at_once() {
    local lane
    for lane in 1 2 3 4; do
        puts "$lane" &
    done
    wait
    cat "$room"/lane[1-4] >"$room/lanes"
    is "$1: each is done or refused" 24 "$(count_like '[03] *' <"$room/lanes")"
    run "$folder" list
    while read -r answer key; do
        [ "$answer" = 0 ] || continue
        [[ $said == *"main $key 3 0 0"* ]]
        is "$1: $key, which was done, is there" 0 $?
    done <"$room/lanes"
    [[ $said == *"$old"* ]]
    is "$1: the old ones are there" "0 0" "$status $?"
}
four_at_once 'four at once'
export BLKCACHE_WAIT=600
four_at_once 'four at once that wait'
is 'four at once that wait: none is refused' 24 "$(count_like '0 *' <"$room/lanes")"
unset BLKCACHE_WAIT

# Words that only read, several at once.
for number in 1 2 3 4 5 6 7 8; do
    (timeout 60 "$program" "$folder" verify >/dev/null 2>&1; echo $? >"$room/verified$number") &
done
wait
is 'verify, eight at once' '0 0 0 0 0 0 0 0' "$(echo $(cat "$room"/verified?))"

# How long to wait is a number of seconds.
for seconds in x -1 1.5 ' 1' 1s 99999999999999999999999; do
    BLKCACHE_WAIT=$seconds run "$folder" count
    is "BLKCACHE_WAIT is [$seconds]" '2 usage' "$status $said"
done
for seconds in '' 0 3 1000000000; do
    BLKCACHE_WAIT=$seconds run "$folder" count
    is "BLKCACHE_WAIT is [$seconds]" '0 items' "$status ${said%% *}"
done

# What the file system answers to the question for a lock, by strace: without locks the program continues, and any other error is a failure of
# the folder, before a name is read or a cache file is opened.
lock_answers() {
    strace -o "$room/calls" -e trace=flock,openat,open,getdents64 -e "inject=flock:$1" "$program" "$folder" "${@:2}" <"$room/input" >"$room/said" 2>"$room/complained"
    status=$?
    said=$(cat "$room/said" "$room/complained")
}
# How many calls opened a cache file, and how many read names.
opened() {
    echo "$(count_like 'open*"index"*' <"$room/calls") $(count_like 'open*"data_*' <"$room/calls") $(count_like 'getdents64(*' <"$room/calls")"
}
if ! command -v strace >/dev/null || ! strace -o /dev/null -e trace=flock -e inject=flock:error=ENOLCK true 2>/dev/null; then
    skip 'what the file system answers to the question for a lock' 'strace is missing, or may not do so'
else
    before=$(held "$folder")
    for words in count verify; do
        for error in ENOSYS EOPNOTSUPP ENOLCK; do
            lock_answers "error=$error" $words
            is "no locks ($error), $words" '0 yes' "$status $([[ $said == *items* ]] && echo yes)"
        done
        for error in EIO EINVAL EBADF EPERM EACCES ENOMEM; do
            lock_answers "error=$error" $words
            is "a question for the lock that fails ($error), $words" "$([ "$error" = ENOMEM ] && echo 6 || echo 3)  0 0 0" "$status $said $(opened)"
        done
        lock_answers error=EINTR:when=1 $words
        is "a question for the lock that is interrupted, $words" '0 yes 2' "$status $([[ $said == *items* ]] && echo yes) $(count_like 'flock(*' <"$room/calls")"
    done
    lock_answers error=EAGAIN count
    is 'another process has the folder: no name is read and no cache file is opened' '3  0 0 0' "$status $said $(opened)"
    is 'another process has the folder: it is asked once' 1 "$(count_like 'flock(*' <"$room/calls")"
    BLKCACHE_WAIT=1 lock_answers error=EAGAIN:when=1..3 count
    is 'another process has the folder at three tries' '0 yes 4' "$status $([[ $said == *items* ]] && echo yes) $(count_like 'flock(*' <"$room/calls")"
    BLKCACHE_WAIT=1 strace -o "$room/calls" -e trace=flock,nanosleep,clock_nanosleep -e inject=flock:error=EAGAIN:when=1..3 "$program" "$folder" count >/dev/null 2>&1
    is 'with 50 ms between them' 3 "$(count_like '*tv_sec=0, tv_nsec=50000000*' <"$room/calls")"
    is 'the folder has what it had' "$before" "$(held "$folder")"

    # The lock is had until nothing more is written: the folder, on which it is, isn't closed before.
    printf 'create 0 page\nwrite 0 0 0 %040000d\nclose 0\ndoomkey page\ncreate 1 open\nwrite 1 0 0 61\n' 0 >"$room/input"
    strace -o "$room/calls" -e trace=flock,close,pwrite64,ftruncate,unlink,openat "$program" "$folder" session <"$room/input" >"$room/said" 2>"$room/complained"
    is 'a session that writes, while its calls are looked at' '0 6' "$? $(count_like 'ok*' <"$room/said")"
    : >"$room/input"
    number=none had=0 lost=0
    while IFS= read -r line; do
        case $line in
            flock\(*) number=${line#flock(} number=${number%%,*} ;;
            "close($number)"*) number=gone ;;
            pwrite64\(* | ftruncate\(* | unlink\(* | *O_CREAT*) [[ $number == +([0-9]) ]] && had=$((had + 1)) || lost=$((lost + 1)) ;;
        esac
    done <"$room/calls"
    is 'it writes with the lock alone' '0 yes' "$lost $([ "$had" -gt 20 ] && echo yes)"
    run "$folder" doom open
    is 'what it wrote is removed' '0 ok' "$status $said"
fi

# The same for each number that an error of the system may have, answered by a library: the program continues at three of them alone (ENOLCK,
# ENOSYS and EOPNOTSUPP) and where the question was interrupted (EINTR), which it asks again.
if ! command -v cc >/dev/null || ! cc -shared -fPIC -o "$room/unlocked.so" "$top/tests/unlocked.c" -ldl 2>/dev/null; then
    skip 'each error of the question for a lock' 'cc is missing'
else
    before=$(held "$folder")
    for words in count verify; do
        answers=
        for ((number = 1; number < 134; number++)); do
            UNLOCKED=$number LD_PRELOAD=$room/unlocked.so "$program" "$folder" "$words" <"$room/input" >"$room/said" 2>"$room/complained"
            status=$?
            said=
            read -r said <"$room/said"
            case "$status ${said%% *}" in
                '3 ') ;;
                '6 ') answers+="$number: out of memory, " ;;
                '0 items' | '0 kept') answers+="$number: continues, " ;;
                *) answers+="$number: $status $said, " ;;
            esac
        done
        is "each error of the question for a lock, $words: where it isn't 3 with nothing printed" \
            '4: continues, 12: out of memory, 37: continues, 38: continues, 95: continues, ' "$answers"
    done
    is 'each error of the question for a lock: the folder has what it had' "$before" "$(held "$folder")"
fi

if ! type -P flock >/dev/null; then
    skip 'a lock of another program' 'flock is missing'
    finish
fi
exec 8<"$folder"
flock --exclusive 8
for words in "${words_that_open[@]}" "${words_that_read[@]}"; do
    # shellcheck disable=SC2086
    is_held 'beside a lock of another program' $words
done
flock --unlock 8
flock --shared 8
for words in "${words_that_open[@]}"; do
    # shellcheck disable=SC2086
    is_held 'beside a shared lock of another program' $words
done
for words in "${words_that_read[@]}"; do
    # shellcheck disable=SC2086
    run "$folder" $words
    is "beside a shared lock of another program, $words" 0 "$status"
done
flock --unlock 8

# Who may read the folder can take the lock and keep it; who may only enter it cannot.
as_nobody=()
[ "$(id -u)" != 0 ] || as_nobody=(chroot --userspec=65534:65534 /)
chmod 711 "$room"
locked_by_another() {
    chmod "$1" "$folder"
    "${as_nobody[@]}" "$BASH" -c '{ exec 7<"$1"; } 2>/dev/null || exit 4; flock --exclusive --nonblock 7 || exit 5; echo locked; read -r _' -- "$folder" <&9 >"$room/locked" &
}
if [ "$(id -u)" != 0 ] || ! "${as_nobody[@]}" true 2>/dev/null; then
    skip 'a lock of another user' 'nothing can be run as another user here'
else
    mkfifo "$room/pipe"
    exec 9<>"$room/pipe"
    locked_by_another 755
    for ((tries = 0; tries < 100; tries++)); do
        [ ! -s "$room/locked" ] || break
        sleep 0.05
    done
    is 'another user, who may read the folder, has the lock' locked "$(cat "$room/locked")"
    is_held 'beside a lock of another user' count
    echo >&9
    wait "$!"
    run "$folder" count
    is 'once he has given it back' 0 "$status"
    locked_by_another 711
    wait "$!"
    is 'another user, who may only enter the folder, cannot open it' '4 ' "$? $(cat "$room/locked")"
    exec 9>&-
    chmod 755 "$folder"
fi

# It is waited for, at least as long as that is said, and not longer than the other one has it.
flock --exclusive 8
from=${EPOCHREALTIME/./}
BLKCACHE_WAIT=1 run "$folder" count
took=$((${EPOCHREALTIME/./} - from))
is 'a lock that is not given back: a second, and 3' '3 yes' "$status$said $([ "$took" -ge 1000000 ] && echo yes || echo "$took")"
(sleep 1 && flock --unlock 8) &
BLKCACHE_WAIT=50 run "$folder" count
is 'a lock that is given back' '0 items' "$status ${said%% *}"
wait
exec 8<&-
finish
