# The greatest limit of bytes, and the longest streams: three of 2147483647 bytes, whose costs sum to more than 32 bits hold.
. "$(dirname "${BASH_SOURCE[0]}")/common.sh"

# Runs the program with arguments over lines, and compares the status and all that is said: NAME STATUS OUTPUT WORDS -- LINES
says() {
    local name=$1 wanted="$2 $3" words=()
    shift 3
    while [ $# != 0 ] && [ "$1" != -- ]; do
        words+=("$1")
        shift
    done
    : >"$room/input"
    [ $# -lt 2 ] || printf '%s\n' "${@:2}" >"$room/input"
    run "$folder" "${words[@]}"
    : >"$room/input"
    is "$name" "$wanted" "$status $said$complained"
}
most=1099511627776

# What is refused: by the length of a stream under the greatest limit, and by an eighth of the limit under a small one.
folder=$room/refused
mkdir "$folder"
says 'the greatest limit' 0 "$empty_line" --max $most count
says 'a greater limit' 2 usage --max 1099511627777 count
says 'a stream that is too long' 1 $'ok\nrefused 6 TooLarge\nrefused 6 TooLarge\nok 0' --max $most session -- \
    'create 0 a' 'write 0 0 2147483647 61' 'write 0 0 18446744073709551615 61' 'write 0 0 0 -'
says 'an eighth of a small limit' 1 $'ok\nok 1\nrefused 6 TooLarge' --max 1000 session -- 'create 0 b' 'write 0 0 124 61' 'write 0 0 125 61'

if ! truncate -s 2147483647 "$room/long" 2>/dev/null; then
    skip 'streams of 2147483647 bytes' 'no file may be so long here'
    finish
fi
rm "$room/long"
folder=$room/longest
mkdir "$folder"
says 'three streams' 0 $'ok\nok 1\nok 1\nok 1\nsize 2147483647\nsize 2147483647\nsize 2147483647\ndata 8 0000000000000061\ndata 1 61\ndata 0 -\ntotal 1 6442450942\nok' \
    --max $most session -- 'create 0 a' 'write 0 0 2147483646 61' 'write 0 1 2147483646 61' 'write 0 2 2147483646 61' 'size 0 0' 'size 0 1' 'size 0 2' \
    'read 0 0 2147483639 100' 'read 0 1 2147483646 100' 'read 0 2 2147483647 1' total 'close 0'
says 'they are counted' 0 'items 1 bytes 6442450942' --max $most count
# As eight bytes the sum is 0x000000017FFFFFFE.
is 'their sum' '00030000 00000000 7ffffffe 00000001' "$(words_of "$folder" 4 12 48 52)"
is 'they take less than a MiB of the disk' yes "$([ "$(du -sk "$folder" | cut -f 1)" -lt 1024 ] && echo yes)"
says 'they are listed' 0 $'main a 2147483647 2147483647 2147483647\nend 1' list
says 'they are kept' 0 $'kept 1\nitems 1 bytes 6442450942' verify
run "$folder" inspect index
is 'the index of the sum' $'version 00030000\nnum_entries 00000001\nnum_bytes 00000000' "$(head -n 4 <<<"$said" | tail -n 3)"

# In the first version the sum has 32 bits; it is whole once the folder is raised.
cp -a "$folder" "$room/first"
folder=$room/first
put_back "$folder" '\376\377\377\177' '\007\0\0\0\007\0\0\0'
says 'they are kept in a folder of the first version' 0 $'kept 1\nitems 1 bytes 6442450942' verify
says 'they are counted there' 0 'items 1 bytes 6442450942' count
is 'their sum once it is raised' '00030000 00000000 7ffffffe 00000001' "$(words_of "$folder" 4 12 48 52)"

# A sum that falls below 2 ^ 32 and rises above it: what one word borrows or carries, the other one has.
folder=$room/longest
says 'two of them are cut' 0 $'ok\nok 0\nok 0\ntotal 1 2147483648\nok' --max $most session -- 'open 0 a' 'cut 0 0 0 -' 'cut 0 1 0 -' total 'close 0'
is 'the sum of the third' '80000000 00000000' "$(words_of "$folder" 48 52)"
says 'one grows again' 0 $'ok\nok 1\nok 1\ntotal 1 4294967296\nok' --max $most session -- 'open 0 a' 'write 0 0 2147483646 61' 'write 0 1 0 61' total 'close 0'
is 'the sum of both, and a byte' '00000000 00000001' "$(words_of "$folder" 48 52)"
says 'another entry comes and goes' 0 $'ok\nok\ntotal 2 4294967297\nok' --max $most session -- 'create 1 b' 'close 1' total 'doomkey b'
is 'the sum is as it was' '00000000 00000001' "$(words_of "$folder" 48 52)"
says 'all are cut' 0 $'ok\nok 0\nok 0\nok 0\ntotal 1 1\nok' --max $most session -- 'open 0 a' 'cut 0 0 0 -' 'cut 0 1 0 -' 'cut 0 2 0 -' total 'close 0'
is 'the sum of a key' '00000001 00000000' "$(words_of "$folder" 48 52)"
says 'the key is counted' 0 'items 1 bytes 1' count
finish
