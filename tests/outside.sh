# Nothing outside the folder is read or written: links and second names of cache files are refused, before a run and during one.
# OUTSIDE_OPENINGS says how many openings of each name have to go well beside a program that swaps it, however long that takes. Without it
# there are up to ten thousand of an external file, which sessions open again and again, and 300 of each other, which take a run each: some
# that may write, and, of each name, some of a subcommand that only reads.
. "$(dirname "${BASH_SOURCE[0]}")/common.sh"
openings_of_each=${OUTSIDE_OPENINGS:-}

# A folder with two entries, each with a stream in a file of its own.
digits=$(printf '7a%.0s' {1..20000})
mkdir "$room/two"
printf '%s\n' 'create 0 a' "write 0 0 0 $digits" 'create 1 b' "write 1 0 0 $digits" 'close 0' 'close 1' >"$room/input"
run "$room/two" session
is 'two entries with files of their own' '0 f_000001 f_000002' "$status $(cd "$room/two" && echo f_*)"
: >"$room/input"

# What may be put in place of a file: something that leads to a file outside, which has the same bytes.
elsewhere=$room/elsewhere
mkdir "$elsewhere"
place() {
    rm -f "$elsewhere/file" "$2.new"
    cp "$2" "$elsewhere/file"
    case $1 in
        'a hard link') ln "$elsewhere/file" "$2.new" ;;
        'a link') ln -s "$elsewhere/file" "$2.new" ;;
        'a link to nothing') ln -s "$elsewhere/nothing" "$2.new" ;;
        'a FIFO') mkfifo "$2.new" ;;
    esac
    mv -fT "$2.new" "$2"
}

# Before a run: each name, on each subcommand.
for name in index data_0 data_1 data_2 data_3 f_000001; do
    for what in 'a hard link' 'a link' 'a link to nothing'; do
        rm -rf "$room/try"
        cp -a "$room/two" "$room/try"
        place "$what" "$room/try/$name"
        before=$(both "$room/try" && both "$elsewhere")
        for words in count 'get a 0' 'put a 0' verify; do
            # shellcheck disable=SC2086
            run "$room/try" $words
            is "$what as $name, $words" '3 ' "$status $said$complained"
        done
        is "$what as $name: nothing is changed" "$before" "$(both "$room/try" && both "$elsewhere")"
    done
done

# A file of another device that has a name by a mount.
mounted() {
    unshare --mount "$BASH" -c 'mount --bind "$1" "$2" && exec "${@:3}"' -- "$device/file" "$room/try/$name" "$@" 2>/dev/null
}
device=
name=index
rm -rf "$room/try"
cp -a "$room/two" "$room/try"
for it in /dev/shm /run /tmp "$HOME"; do
    [ -w "$it" ] && [ "$(stat -c %d "$it")" != "$(stat -c %d "$room")" ] || continue
    device=$(mktemp -d "$it/outside.XXXXXX") && cp "$room/two/index" "$device/file" && break
    device=
done
if [ -z "$device" ]; then
    skip 'files of another device' 'no folder of another device can be written'
elif ! type -P unshare mount >/dev/null || ! mounted true; then
    skip 'files of another device' 'unshare or mount is missing, or not allowed'
else
    for name in index data_0 data_1 data_2 data_3 f_000001; do
        cp "$room/two/$name" "$device/file"
        before=$(both "$room/try" && both "$device")
        for words in count 'get a 0' 'put a 0' verify; do
            # shellcheck disable=SC2086
            said=$(mounted "$program" "$room/try" $words <"$room/input")
            is "a file of another device as $name, $words" '3 ' "$? $said"
        done
        is "a file of another device as $name: nothing is changed" "$before" "$(both "$room/try" && both "$device")"
    done
fi

# A union of folders of two devices, whose files have other devices than their folder.
united() {
    unshare --mount "$BASH" -c 'mount -t overlay overlay -o "lowerdir=$1,upperdir=$2/upper,workdir=$2/work" "$2/seen" &&
        [ "$(stat -c %d "$2/seen")" != "$(stat -c %d "$2/seen/index")" ] && exec "${@:3}"' -- "$device/lower" "$room/union" "$@" 2>/dev/null
}
mkdir -p "$room/union"/{upper,work,seen}
[ -z "$device" ] || cp -a "$room/two" "$device/lower"
if [ -z "$device" ] || ! type -P unshare mount >/dev/null || ! united true; then
    skip 'a union of folders of two devices' 'there are none here, or unshare or mount is missing, or not allowed'
else
    before=$(both "$device/lower")
    for words in count 'get a 0' 'put a 0' verify; do
        # shellcheck disable=SC2086
        said=$(united "$program" "$room/union/seen" $words <"$room/input")
        is "a union of folders of two devices, $words" '3 ' "$? $said"
    done
    is 'a union of folders of two devices: nothing is changed' "$before " "$(both "$device/lower") $(ls "$room/union/upper")"
fi
[ -z "$device" ] || rm -rf "$device"

make finished "$room/unmade"
rm "$room/unmade/index"
place 'a hard link' "$room/unmade/data_1"
before=$(both "$elsewhere")
run "$room/unmade" count
is 'a hard link in a folder without an index' '3 ' "$status $said$complained"
is 'its file is not written' "$before" "$(both "$elsewhere")"

# While a session is open: the file of one entry was closed when that of the other was opened, and is opened again.
talk() {
    coproc talker { exec "$program" "$room/try" session 2>"$room/talked"; }
    talk_in=${talker[1]} talk_out=${talker[0]} talk_id=$talker_PID
}
asked() {
    reply=
    { echo "$1" >&"$talk_in"; } 2>/dev/null
    read -r -t 20 reply <&"$talk_out"
}
ends() {
    eval "exec $talk_in>&-"
    wait "$talk_id"
    status=$?
}
for what in 'a hard link' 'a link' 'a link to nothing' 'a FIFO'; do
    # A page of the file that was read is kept, so the read is of another.
    for line in 'write 0 0 0 6162' 'read 0 0 16000 9'; do
        rm -rf "$room/try"
        cp -a "$room/two" "$room/try"
        talk
        asked 'open 0 a'
        asked 'open 1 b'
        asked 'read 0 0 0 1'
        asked 'read 1 0 0 1'
        is 'a session has both' 'data 1 7a' "$reply"
        place "$what" "$room/try/f_000001"
        before=$(both "$elsewhere")
        asked "$line"
        ends
        # Of the reply to the read no more than its start is printed, without a byte of data.
        front=
        [[ $line != read* ]] || front='data 9'
        is "$what during a session, $line" "3 $front" "$status $reply"
        is "$what during a session, $line: what is outside" "$before" "$(both "$elsewhere")"
    done
done

# The index and the block files are open from the beginning: the session continues in its own, and what is put in their place is not touched.
# At its end it asks for the names again, and ends with 3. The next run refuses it too.
for name in index data_0 data_1 data_2 data_3; do
    for what in 'a hard link' 'a link' 'a link to nothing' 'a FIFO'; do
        rm -rf "$room/try"
        cp -a "$room/two" "$room/try"
        talk
        asked 'open 0 a'
        place "$what" "$room/try/$name"
        before=$(both "$elsewhere")
        replies=
        for line in 'write 0 1 0 6162' 'write 0 2 0 63' 'create 1 c' 'write 1 0 0 616263' "write 1 1 0 ${digits:0:4000}" "write 1 2 0 ${digits:0:20000}" 'close 1' 'doomkey b' 'close 0'; do
            asked "$line"
            replies+="$reply, "
        done
        ends
        is "$what as $name during a session, which goes on" '3 ok 2, ok 1, ok, ok 3, ok 2000, ok 10000, ok, ok, ok, ' "$status $replies"
        is "$what as $name during a session: what is outside" "$before" "$(both "$elsewhere")"
        run "$room/try" count
        is "$what as $name during a session, and the next word" '3 ' "$status $said$complained"
        is "$what as $name, and the next word: what is outside" "$before" "$(both "$elsewhere")"
    done
done

# A file that is gone, and one that has a second name, at the end of a session: what was answered may not be in the folder.
for what in 'gone' 'moved away' 'made anew' 'given a second name'; do
    for name in index data_1 f_000002; do
        rm -rf "$room/try" "$room/away"
        cp -a "$room/two" "$room/try"
        talk
        asked 'open 0 b'
        asked 'write 0 0 0 6162'
        case $what in
            gone) rm "$room/try/$name" ;;
            'moved away') mv "$room/try/$name" "$room/away" ;;
            'made anew') cp "$room/try/$name" "$room/away" && mv "$room/away" "$room/try/$name" ;;
            'given a second name') ln "$room/try/$name" "$room/away" ;;
        esac
        asked 'close 0'
        is "$name $what during a session, which goes on" ok "$reply"
        ends
        is "$name $what during a session, at its end" 3 "$status"
    done
done

# An external file is closed when another is used: it is asked for its name then, and the command fails. So is one that is to be deleted,
# whether it is open or not.
for what in 'a hard link' 'a link' 'a link to nothing' 'a FIFO' nothing; do
    for line in 'write 1 0 0 6162' 'doomkey b' 'doom 0'; do
        name=f_000001
        [ "$line" != 'doomkey b' ] || name=f_000002
        rm -rf "$room/try"
        cp -a "$room/two" "$room/try"
        talk
        asked 'open 0 a'
        [ "$line" = 'doomkey b' ] || asked 'open 1 b'
        asked 'write 0 0 0 6162'
        if [ "$what" = nothing ]; then
            rm "$room/try/$name"
        else
            place "$what" "$room/try/$name"
        fi
        before=$(both "$elsewhere")
        asked "$line"
        [ "$line" != 'doom 0' ] || asked 'close 0'
        ends
        is "$what as $name during a session, before $line" 3 "$status"
        is "$what as $name during a session, before $line: what is outside" "$before" "$(both "$elsewhere")"
    done
done

# What has the name of a file that a session is about to make is not taken over, and what it leads to is not made.
for what in 'a hard link' 'a link' 'a link to nothing' 'a FIFO'; do
    rm -rf "$room/try"
    cp -a "$room/two" "$room/try"
    talk
    asked 'create 0 c'
    cp "$room/two/f_000001" "$room/try/f_000003"
    place "$what" "$room/try/f_000003"
    before=$(both "$elsewhere")
    asked "write 0 0 0 $digits"
    ends
    is "$what as a file that is to be made" '3 ' "$status $reply"
    is "$what as a file that is to be made: what is outside" "$before" "$(both "$elsewhere")"
done

# A folder that is moved away under a session stays its folder, whatever is put in its place.
rm -rf "$room/try" "$room/moved"
cp -a "$room/two" "$room/try"
talk
asked 'open 0 a'
asked 'open 1 b'
mv "$room/try" "$room/moved"
mkdir "$room/instead"
ln -s instead "$room/try"
asked 'create 2 c'
asked "write 2 0 0 $digits"
is 'a session whose folder was moved goes on' 'ok 20000' "$reply"
ends
is 'and ends' 0 "$status"
is 'nothing is put into what is in its place' '' "$(picture "$room/instead")"
run "$room/moved" list
is 'its entries are in the folder that was moved' $'0 main c 20000 0 0\nmain b 20000 0 0\nmain a 20000 0 0\nend 3' "$status $said"
rm -rf "$room/try" "$room/instead"

# Begins to swap a file of a new folder with what is in the folder beside: NAME MICROSECONDS, which it is there for at a time. Then ends it,
# with the file in its place again.
begin_swaps() {
    rm -rf "$room/try"
    cp -a "$room/two" "$room/try"
    : >"$room/going"
    "$room/swapped" "$room/going" "$2" 4000 "$room/try/$1" "$room/aside/"* >"$room/swaps" &
    swapper=$!
}
end_swaps() {
    local number by
    rm "$room/going"
    wait "$swapper" || faults=$((faults + 1))
    read -r number by <"$room/swaps"
    swaps=$((swaps + ${number:-0}))
    [ "$by" != rename ] || no_exchange=yes
}

# Runs the program with arguments beside one that swaps a file with all that may be put in its place, until so many openings have gone well,
# or some seconds are over: OPENINGS NAME MICROSECONDS WORDS, with the lines as input. A run of a subcommand opens the file once; one of a
# session opens it again at every other reply from the third on. What was refused is no opening, but has to be there too. No run prints
# anything else than without swaps, and nothing outside is written or made. A FIFO is not among what is put in place of a file that is opened
# for reading alone: that would wait for a writer.
beside_swaps() {
    local most=$1 name=$2 most_there=$3 ends=$((SECONDS + 8)) openings=0 well=0 silent=0 late=0 others=
    local swaps=0 faults=0 no_exchange= swapper wanted counted before replies
    shift 3
    rm -rf "$room/try" "$room/aside" "$elsewhere"
    cp -a "$room/two" "$room/try"
    wanted=$("$program" "$room/try" "$@" <"$room/lines")
    counted=$("$program" "$room/try" count)
    is "$name, before it is swapped beside $1: two entries are counted" 'items 2 bytes' "${counted% *}"
    rm -rf "$room/two"
    cp -a "$room/try" "$room/two"
    mkdir "$elsewhere" "$room/aside" "$room/aside/folder"
    cp "$room/two/$name" "$elsewhere/file"
    ln -s "$elsewhere/file" "$room/aside/link"
    ln -s "$elsewhere/nothing" "$room/aside/link-to-nothing"
    ln "$elsewhere/file" "$room/aside/second-name"
    [ "$1" = verify ] || mkfifo "$room/aside/fifo"
    before=$(picture "$room/aside" && both "$elsewhere")
    begin_swaps "$name" "$most_there"
    while [ "$openings" -lt "$most" ] || [ "$well" = 0 ] || [ $((silent + late)) = 0 ]; do
        [ -n "$openings_of_each" ] || [ "$SECONDS" -lt "$ends" ] || break
        "$program" "$room/try" "$@" <"$room/lines" >"$room/said" 2>&1
        status=$?
        said=$(<"$room/said")
        case $status in
            0)
                well=$((well + 1))
                [ "$said" = "$wanted" ] || others+=" $status [${said:0:100}]"
                ;;
            3)
                [ -n "$said" ] && late=$((late + 1)) || silent=$((silent + 1))
                [[ $wanted == "$said"* ]] || others+=" $status [${said:0:100}]"
                ;;
            *) others+=" $status" ;;
        esac
        if [ "$1" = session ]; then
            mapfile -t replies <"$room/said"
            openings=$((openings + (${#replies[@]} < 3 ? 0 : (${#replies[@]} - 1) / 2)))
        elif [ "$status" = 0 ]; then
            openings=$((openings + 1))
        fi
        # A run that was refused leaves its entries open, and the next one drops them.
        [ "$status" = 0 ] || { end_swaps && begin_swaps "$name" "$most_there"; }
    done
    end_swaps
    is "$name swapped: it was, up to the end" 0 "$faults"
    echo "$openings openings of $name by $1 beside $swaps swaps: $well runs ended well, $silent were refused at once, $late after they had printed"
    [ "$openings" -ge "$most" ] || skip "some of $most openings of $name beside a program that swaps it" 'the machine is too slow'
    [ -z "$no_exchange" ] || skip "a folder in place of $name" 'the file system exchanges no names'
    is "$name swapped: some runs end well, and some are refused" yes "$([ "$well" -gt 0 ] && [ $((silent + late)) -gt 0 ] && echo yes)"
    is "$name swapped: no other status and no other output" '' "$others"
    is "$name swapped: what is outside, and what was put in its place" "$before" "$(picture "$room/aside" && both "$elsewhere")"
    run "$room/try" count
    is "$name swapped: the entries are there" "0 $counted" "$status $said"
}
if ! command -v cc >/dev/null || ! cc -o "$room/swapped" "$top/tests/swapped.c" 2>/dev/null; then
    skip 'openings beside a program that swaps the names' 'cc is missing'
    finish
fi
# Sessions that open an external file again and again.
{
    printf '%s\n' 'open 0 a' 'open 1 b'
    for ((number = 0; number < 250; number++)); do
        printf '%s\n' 'write 0 0 0 6162' 'write 1 0 0 6162'
    done
} >"$room/lines"
beside_swaps "${openings_of_each:-10000}" f_000001 128000 session

# Subcommands that open the others once each. Count writes the index alone; put writes the block file of its length too, and data_0.
: >"$room/lines"
beside_swaps "${openings_of_each:-300}" index 64000 count
for it in data_0:1000 data_1:100 data_2:3000 data_3:10000; do
    printf "%${it#*:}s" '' >"$room/lines"
    beside_swaps "${openings_of_each:-300}" "${it%:*}" 64000 put b 1
done

# One that only reads.
: >"$room/lines"
for it in index data_0 data_1 data_2 data_3 f_000001; do
    beside_swaps "${openings_of_each:-300}" "$it" 64000 verify
done

# The one way in which others can make it wait: a FIFO that comes between the question for the kind and the opening. Once there is a writer
# it is refused, and nothing is read.
if ! command -v strace >/dev/null || ! strace -o /dev/null -e trace=openat -P "$room" -e inject=openat:delay_enter=1 true 2>/dev/null; then
    skip 'a FIFO that comes just before an opening for reading' 'strace is missing, or may not do so'
    finish
fi
rm -rf "$room/try"
cp -a "$room/two" "$room/try"
mkfifo "$room/fifo"
strace -o "$room/calls" -e trace=openat -P index -e inject=openat:delay_enter=3s "$program" "$room/try" verify >"$room/said" 2>&1 &
waits=$!
sleep 1
mv "$room/fifo" "$room/try/index"
sleep 4
is 'a FIFO that comes just before an opening for reading: it waits' yes "$(kill -0 "$waits" && echo yes)"
timeout 20 "$BASH" -c 'echo line >"$1"' -- "$room/try/index" 2>/dev/null
wait "$waits"
is 'and is refused once there is a writer' '3 ' "$? $(cat "$room/said")"
finish
