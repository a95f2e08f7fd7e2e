# Sessions: every line of the language, the faulty ones, the refusals, and what is there for a new process afterwards.
. "$(dirname "${BASH_SOURCE[0]}")/common.sh"

# Runs a session with options over lines, each of which ends, and compares the status and the output: NAME FOLDER STATUS OUTPUT -- OPTIONS -- LINES
session() {
    local name=$1 folder=$2 wanted="$3 $4" options=()
    shift 5
    while [ "$1" != -- ]; do
        options+=("$1")
        shift
    done
    shift
    : >"$room/input"
    [ $# = 0 ] || printf '%s\n' "$@" >"$room/input"
    run "$folder" "${options[@]}" session
    : >"$room/input"
    is "$name" "$wanted" "$status $said"
    is "$name: the errors" '' "$complained"
}

# What a new process answers to arguments: NAME FOLDER STATUS OUTPUT WORDS
answers() {
    run "$2" "${@:5}"
    is "$1" "$3 $4" "$status $said$complained"
}

# So many bytes 0x7A, as data.
zs() {
    printf '7a%.0s' $(seq "$1")
}

# No line at all: the folder is opened and closed.
mkdir "$room/empty"
session 'an empty session' "$room/empty" 0 '' -- --
answers 'its folder is made' "$room/empty" 0 "$empty_line" count
make finished "$room/finished"
before=$(held "$room/finished")
session 'an empty session on a finished folder' "$room/finished" 0 '' -- --
is 'it leaves the folder as it was' "$before" "$(held "$room/finished")"
make damaged "$room/damaged"
before=$(both "$room/damaged")
session 'a session on a damaged folder' "$room/damaged" 7 "$(line_of damaged)" -- -- 'create 0 a'
is 'it does not write' "$before" "$(both "$room/damaged")"

# Every line of the language, on a fresh folder and on one that was used.
every=('create 0 a' 'write 0 1 5000 616263' 'read 0 1 4998 9' 'size 0 1' 'cut 0 1 2 4A4b' 'read 0 1 0 18446744073709551615' 'write 0 0 0 -'
    'open 4095 a' 'close 0' 'list' 'total' 'create 1 a%20b' 'close 1' 'list' 'open 1 %61' 'doom 1' 'write 1 0 0 7a' 'read 1 0 0 5' 'total'
    'close 1' 'close 4095' 'total' 'doomkey a%20b' 'trim 0' 'swrite 0 0 61' 'create 2 s'
    'swrite 2 1023 6162' 'flush 2' 'sread 2 1023 9' 'srange 2 0 1048576' 'total' 'doom 2' 'total')
replies='ok
ok 3
data 5 0000616263
size 5003
ok 2
data 4 00004a4b
ok 0
ok
ok
main a 0 4 0
end 1
total 1 5
ok
ok
main a%20b 0 0 0
main a 0 4 0
end 2
ok
ok
ok 1
data 1 7a
total 2 9
ok
ok
total 1 3
ok
ok 0
refused 1 BadHandle
ok
ok 2
ok
data 0 -
range 1024 1
total 2 9497
ok
total 1 8257'
mkdir "$room/every"
session 'every line, on a fresh folder' "$room/every" 1 "$replies" -- -- "${every[@]}"
session 'every line, on a used folder' "$room/every" 1 "$replies" -- -- "${every[@]}"
answers 'nothing is left of it' "$room/every" 0 "$empty_line" count

# Lines that are none. The last line need not end, and a longer one is skipped.
mkdir "$room/faulty"
session 'six faulty lines' "$room/faulty" 1 'fault 1 1 Empty
fault 2 2 UnknownWord
fault 3 3 FieldCount
fault 4 4 Number
fault 5 5 Hex
fault 6 6 Key' -- -- '' 'fly 1' 'create 0' 'create x a' 'write 0 0 0 6' 'create 0 a%2'
answers 'they leave nothing' "$room/faulty" 0 "$empty_line" count
printf 'create 0 a\nsize 0 0' >"$room/input"
run "$room/faulty" session
is 'a last line that does not end' $'0 ok\nsize 0' "$status $said"
{
    head -c 2200001 /dev/zero | tr '\0' x
    printf '\ntotal\ndoomkey '
    head -c 2199992 /dev/zero | tr '\0' k
    printf '\ntotal\n'
} >"$room/input"
run "$room/faulty" session
is 'a line that is too long, and one that is not' $'1 fault 1 7 TooLong\ntotal 1 1\nrefused 13 BadKey\ntotal 1 1' "$status $said"
: >"$room/input"

# The input is read 65536 bytes at a time: where the first reply can't be printed the rest of it is left.
mkdir "$room/pieces"
printf 'total\n%.0s' $(seq 20000) >"$room/lines"
{
    "$program" "$room/pieces" session >/dev/full 2>"$room/complained"
    status=$?
    left=$(wc -c)
} <"$room/lines"
is 'a first reply that is not printed leaves all but 65536 bytes of the input' '5 54464' "$status $left"

# A reply is there before the next line is given.
coproc talk { "$program" "$room/pieces" session 2>"$room/complained"; }
# (bash forgets them once the program has ended)
talk_in=${talk[1]} talk_id=$talk_PID
echo 'create 0 a' >&"${talk[1]}"
read -r -t 20 first <&"${talk[0]}"
echo 'total' >&"${talk[1]}"
read -r -t 20 second <&"${talk[0]}"
is 'each reply comes before the next line' 'ok, total 1 1' "$first, $second"
eval "exec $talk_in>&-"
wait "$talk_id"
is 'and the session ends with its input' 0 $?

# The refusals, each with the name 0 bound to a.
mkdir "$room/refusals"
session 'the refusals' "$room/refusals" 1 'ok
refused 2 HandleBusy
refused 4 Exists
refused 1 BadHandle
refused 1 BadHandle
refused 3 Missing
refused 13 BadKey
refused 5 BadStream
refused 6 TooLarge
total 1 1
ok
refused 10 Doomed
refused 3 Missing' -- -- 'create 0 a' 'create 0 a' 'create 1 a' 'create 4096 x' 'read 9 0 0 1' 'open 1 zz' 'create 1 ' 'read 0 3 0 1' 'write 0 0 10485760 61' total 'doom 0' 'doom 0' 'doomkey a'
answers 'a doomed object is gone with its name' "$room/refusals" 0 'end 0' list

# Streams by their length: in blocks, and in a file of their own, which is deleted where they get short.
mkdir "$room/streams"
session 'a stream in a file of its own' "$room/streams" 0 $'ok\nok 20000' -- -- 'create 0 g' "write 0 0 0 $(zs 20000)"
is 'its file' 20000 "$(stat -c %s "$room/streams/f_000001")"
session 'it is cut' "$room/streams" 0 $'ok\nok 10\nsize 10' -- -- 'open 0 g' "cut 0 0 0 $(zs 10)" 'size 0 0'
is 'its file is gone' '' "$(cd "$room/streams" && shopt -s nullglob && echo f_*)"
answers 'its bytes in a new process' "$room/streams" 0 $'ok\ndata 10 7a7a7a7a7a7a7a7a7a7a\nok' get g 0

# The objects of a key that is doomed and made again.
mkdir "$room/again"
session 'a key is doomed and made again' "$room/again" 1 'ok
ok 2
ok
ok
data 2 6162
refused 10 Doomed
ok
main k 0 0 0
end 1
total 2 4' -- -- 'create 0 k' 'write 0 0 0 6162' 'open 1 k' 'doom 0' 'read 1 0 0 9' 'doom 1' 'create 2 k' list total

# What is evicted, by bytes and by items. The limits hold for the run alone.
mkdir "$room/bytes"
for it in 'b 299' 'c 299' 'd 299'; do
    lines+=("create 0 ${it% *}" "write 0 0 0 $(zs 125)" "write 0 1 0 $(zs 125)" "write 0 2 0 $(zs 49)" 'close 0')
done
session 'four objects' "$room/bytes" 0 "$(printf 'ok\nok 39\nok\n'; for it in b c d; do printf 'ok\nok 125\nok 125\nok 49\nok\n'; done; echo 'total 4 940')" -- --max 1000 -- \
    'create 0 a' "write 0 0 0 $(zs 39)" 'close 0' "${lines[@]}" total
cp -r "$room/bytes" "$room/kept"
session 'two of them make room' "$room/bytes" 0 $'ok\nevicted a\nevicted b\nok 60\ntotal 3 661' -- --max=1000 -- 'create 0 e' "write 0 0 0 $(zs 60)" total
answers 'and are gone' "$room/bytes" 0 $'main e 60 0 0\nmain d 125 125 49\nmain c 125 125 49\nend 3' list
session 'without the limit none has to go' "$room/kept" 0 $'ok\nok 60\ntotal 5 1001' -- -- 'create 0 e' "write 0 0 0 $(zs 60)" total
mkdir "$room/items"
session 'items make room' "$room/items" 1 $'ok\nok\nrefused 11 Full\nok\nevicted a\nok' -- --items 2 -- 'create 0 a' 'create 1 b' 'create 2 c' 'close 0' 'create 2 c'
answers 'in the order of their use' "$room/items" 0 $'main c 0 0 0\nmain b 0 0 0\nend 2' list

# What is open is closed at the end, and what is there is found by a new process.
mkdir "$room/open"
session 'what is open at the end' "$room/open" 0 $'ok\nok\nok 1' -- -- 'create 7 a' 'create 3 b' 'write 3 0 0 62'
answers 'it is there' "$room/open" 0 $'main b 1 0 0\nmain a 0 0 0\nend 2' list
answers 'with its bytes' "$room/open" 0 $'ok\ndata 1 62\nok' get b 0
answers 'and without' "$room/open" 0 $'ok\ndata 0 -\nok' get a 0

# An input that fails, an output that fails, and a folder that fails.
mkdir "$room/fails"
timeout 60 "$program" "$room/fails" session <"$room/finished" >"$room/said" 2>&1
is 'an input that cannot be read' '4 ' "$? $(cat "$room/said")"
answers 'the folder is made all the same' "$room/fails" 0 "$empty_line" count
printf 'create 0 a\ncreate 1 b\n' >"$room/input"
if [ -w /dev/full ]; then
    timeout 60 "$program" "$room/fails" session <"$room/input" >/dev/full 2>"$room/complained"
    is 'an output that is full' '5 ' "$? $(cat "$room/complained")"
    : >"$room/input"
    answers 'the command whose reply failed is done, and no more' "$room/fails" 0 $'main a 0 0 0\nend 1' list
else
    skip 'an output that is full' 'there is no /dev/full'
fi
: >"$room/input"
session 'a folder that is not there' "$room/nowhere" 3 '' -- -- 'create 0 a'
finish
