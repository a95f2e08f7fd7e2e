# The subcommands that do one thing, each on a fresh folder and on one that was used; and which arguments are in the grammar.
. "$(dirname "${BASH_SOURCE[0]}")/common.sh"

# Runs the program with arguments over an input, and compares the status and all that is said: NAME FOLDER STATUS OUTPUT WORDS
says() {
    run "$2" "${@:5}"
    is "$1" "$3 $4" "$status $said$complained"
}
input() {
    printf '%s' "$1" >"$room/input"
}

# On a fresh folder, which is made by each.
fresh() {
    local folder=$room/fresh-$((fresh_number += 1))
    mkdir "$folder"
    says "$1, fresh" "$folder" "${@:2}"
    says "$1, fresh: the folder is made" "$folder" 0 "${after:-end 0}" list
}
fresh_number=0
fresh 'session' 0 '' session
fresh 'count' 0 "$empty_line" count
fresh 'list' 0 'end 0' list
fresh 'get' 1 'refused 3 Missing' get a 0
fresh 'doom' 1 'refused 3 Missing' doom a
fresh 'trim' 0 'ok 0' trim 0
input abc
after=$'main a 3 0 0\nend 1' fresh 'put' 0 $'ok\nok 3\nok' put a 0

# On a folder that was used.
folder=$room/used
mkdir "$folder"
says 'put makes an entry, and shows no Open' "$folder" 0 $'ok\nok 3\nok' put a 0
says 'count' "$folder" 0 'items 1 bytes 4' count
says 'list' "$folder" 0 $'main a 3 0 0\nend 1' list
says 'get' "$folder" 0 $'ok\ndata 3 616263\nok' get a 0
says 'get of a stream without bytes' "$folder" 0 $'ok\ndata 0 -\nok' get a 2
says 'get of a stream that is none' "$folder" 1 $'ok\nrefused 5 BadStream' get a 3
says 'get of a key that is spelled otherwise' "$folder" 0 $'ok\ndata 3 616263\nok' get %61 0
says 'get of no key' "$folder" 1 'refused 13 BadKey' get '' 0
input xy
says 'put opens an entry that is there, and shows it' "$folder" 0 $'ok\nok 2\nok' put a 0
says 'the stream ends with the input' "$folder" 0 $'ok\ndata 2 7879\nok' get a 0
input ''
says 'put of no byte' "$folder" 0 $'ok\nok 0\nok' put b%20c 1
says 'the last used is first' "$folder" 0 $'main b%20c 0 0 0\nmain a 2 0 0\nend 2' list
input "$(printf 'z%.0s' $(seq 126))"
says 'put of more than a stream may have' "$folder" 1 $'ok\nrefused 6 TooLarge' --max 1000 put a 0
says 'it leaves the stream' "$folder" 0 $'ok\ndata 2 7879\nok' get a 0
says 'put into a stream that is none' "$folder" 1 $'ok\nrefused 5 BadStream' put a 3
input ''
says 'doom' "$folder" 0 'ok' doom b%20c
says 'doom of what is gone' "$folder" 1 'refused 3 Missing' doom b%20c
says 'trim to what is there' "$folder" 0 'ok 0' trim 3
says 'trim' "$folder" 0 $'evicted a\nok 1' trim 2
says 'nothing is left' "$folder" 0 "$empty_line" count

# put reads its input before the folder is opened: one that is too long, or that fails, leaves it.
mkdir "$room/long"
head -c 1048577 /dev/zero >"$room/input"
says 'an input that is too long' "$room/long" 8 '' put a 0
is 'the folder is not opened' '' "$(picture "$room/long")"
head -c 1048576 /dev/zero >"$room/input"
says 'the longest input' "$room/long" 0 $'ok\nok 1048576\nok' put a 0
input ''
says 'it is kept' "$room/long" 0 $'main a 1048576 0 0\nend 1' list
before=$(both "$room/long")
timeout 60 "$program" "$room/long" put a 0 <"$room" >"$room/said" 2>&1
is 'an input that cannot be read' '4 ' "$? $(cat "$room/said")"
is 'the folder is left' "$before" "$(both "$room/long")"
make damaged "$room/damaged"
before=$(both "$room/damaged")
for it in session list 'get a 0' 'put a 0' 'doom a' 'trim 0' count 'inspect list' 'inspect address a1010004' verify 'gen 1 1'; do
    says "$it on a damaged folder" "$room/damaged" 7 "$(line_of damaged)" $it
done
is 'they leave it' "$before" "$(both "$room/damaged")"

# A folder is inspected and verified, and left as it is; no index is made.
mkdir "$room/unmade"
says 'verify of a folder without an index' "$room/unmade" 0 unfinished verify
says 'inspect of one' "$room/unmade" 0 unfinished inspect address a1010004
is 'no index is made' '' "$(picture "$room/unmade")"
make finished "$room/inspected"
before=$(both "$room/inspected")
zeros=$(printf '%s 00000000\n' num_entries num_bytes last_file)
more=$(printf '%s 00000000\n' crash experiment size head tail transaction operation)
said_of_index() {
    printf 'magic c103cac3\nversion %s\n%s\nthis_id 00000001\nstats 00000000\ntable_len 00010000\n%s' "$1" "$zeros" "$more"
}
says 'the index' "$room/inspected" 0 "$(said_of_index 00030000)" inspect index
says 'a block address' "$room/inspected" 0 'block 2 1 4 2' inspect address a1010004
says 'an external address' "$room/inspected" 0 'external 1' inspect address 80000001
says 'no address' "$room/inspected" 0 none inspect address a4010000
run "$room/inspected" inspect file 0
is 'a file that is linked' $'0 16\nmagic c104cac3\nversion 00020000\nthis_file 00000000' "$status $(wc -l <"$room/said")"$'\n'"$(head -n 3 "$room/said")"
says 'a file that is not linked' "$room/inspected" 0 none inspect file 255
says 'no node' "$room/inspected" 0 'end 0' inspect list
says 'no record' "$room/inspected" 0 'end 0' inspect chain 65535
says 'no entry' "$room/inspected" 0 none inspect entry a1010004
says 'nothing is kept' "$room/inspected" 0 $'kept 0\nitems 0 bytes 0' verify
says 'options change nothing' "$room/inspected" 0 $'kept 0\nitems 0 bytes 0' --max 1 -- verify
is 'the folder is left by all of these' "$before" "$(both "$room/inspected")"
put_back "$room/inspected" '\0\0\0\0'
before=$(both "$room/inspected")
says 'the index of the first version' "$room/inspected" 0 "$(said_of_index 00020000)" inspect index
says 'nothing is kept there' "$room/inspected" 0 $'kept 0\nitems 0 bytes 0' verify
is 'the folder of the first version is left too' "$before" "$(both "$room/inspected")"
make entries "$room/entry"
before=$(both "$room/entry")
says 'an entry is kept' "$room/entry" 0 $'kept 1\nitems 1 bytes 1' verify
says 'its node' "$room/entry" 0 $'node 90000000 contents a0010000 dirty 00000000\nend 1' inspect list
run "$room/entry" inspect entry a0010000
is 'its record' $'0 16\nstate 00000000\nkey_len 00000001' "$status $(wc -l <"$room/said")"$'\n'"$(head -n 5 "$room/said" | tail -n 2)"
is 'its folder is left' "$before" "$(both "$room/entry")"

# The generator. What it prints was worked out by another program.
generated() {
    local folder=$room/generated-$((generated_number += 1))
    mkdir "$folder"
    says "$*" "$folder" 0 "$1" "${@:2}"
}
generated_number=0
generated $'commands 0 refused 0 evicted 0 read 0\nitems 0 bytes 0' gen 0 0
generated $'commands 5 refused 1 evicted 0 read 16945\nitems 1 bytes 16949' gen 0 1
folder=$room/generated-2
says 'its key' "$folder" 0 $'main k807 16945 0 0\nend 1' list
is 'its bytes' '16945  00 01 02 03' "$(stat -c %s "$folder/f_000001") $(head -c 4 "$folder/f_000001" | od -An -tx1)"
says 'a turn whose object is there' "$folder" 0 $'commands 4 refused 0 evicted 0 read 16945\nitems 1 bytes 16949' gen 0 1
for it in 1 2; do
    generated $'commands 8847 refused 847 evicted 0 read 20143015\nitems 847 bytes 14808143' gen 7 2000
done
generated $'commands 1493 refused 293 evicted 275 read 2761963\nitems 18 bytes 197884' gen 7 300 --max 200000
generated $'commands 992 refused 192 evicted 152 read 2111745\nitems 40 bytes 357632' --items 40 gen 3 200

# What is in the grammar. The options are anywhere before an argument --, and after it all arguments are ordinary.
folder=$room/grammar
mkdir "$folder"
says 'an option before' "$folder" 0 "$empty_line" --max 5 count
says 'an option behind' "$folder" 0 "$empty_line" count --max=5
says 'both options' "$folder" 0 "$empty_line" --items=3 count --max 5
says 'the greatest limits' "$folder" 0 "$empty_line" --items 131072 --max 1099511627776 count
says 'a limit of 32 bits' "$folder" 0 "$empty_line" --max 2147483648 count
says 'the word -- before' "$folder" 0 "$empty_line" -- count
says 'the word -- behind' "$folder" 0 "$empty_line" count --
input k
says 'a key behind --' "$folder" 0 $'ok\nok 1\nok' put -- -k 0
says 'a key that is - alone' "$folder" 1 'refused 3 Missing' get - 0
says 'an option between the words' "$folder" 0 $'ok\ndata 1 6b\nok' get --max 500 -- -k 0
says 'an option with a key that is a percent sign' "$folder" 1 'refused 3 Missing' get %25 --items=1 0
input ''

# What is outside: usage is printed, and the folder is left.
before=$(both "$folder")
outside() {
    says "outside: $*" "$folder" 2 usage "$@"
}
outside
outside count x
outside session session
outside get a
outside get a 0 0
outside get a x
outside get a 256
outside get a 00
outside get 'a b' 0
outside get a%2 0
outside put a
outside doom
outside doom a b
outside trim
outside trim 0x10
outside trim 18446744073709551616
outside --max 0 count
outside --max 1099511627777 count
outside --max 18446744073709551616 count
outside --max 5 --max 6 count
outside --max=5 count --max 5
outside --max= count
outside --max
outside count --max
outside --items=0 count
outside --items 131073 count
outside --items 4294967297 count
outside --items 3 --items=3 count
outside -x count
outside --memory count
outside --maximum=5 count
outside count -- -x
outside -- --max 5 count
outside -- -- count
outside inspect
outside inspect lists
outside inspect list 0
outside inspect file
outside inspect file 256
outside inspect chain 65536
outside inspect address A1010004
outside inspect address a101000
outside inspect entry 0xa1010004
outside verify x
outside gen 1
outside gen 1 100001
outside gen 01 0
outside gen 18446744073709551616 0
outside gen 1 1 1
is 'the folder is left by all of these' "$before" "$(both "$folder")"
finish
