# Folders whose index has the first version, 0x20000: what they hold stays, and each opening raises them to 0x30000, also where it is killed.
# One of them is kept in first_version as the program made it that knew no other version, beside what that printed. Which folders are refused
# by their version. What the last program that knew no other version says of a raised folder: BLKCACHE_FIRST names it, or the history has it.
. "$(dirname "${BASH_SOURCE[0]}")/common.sh"
kept=$top/tests/first_version

# Prints the text on the input, in which {N TEXT} stands for TEXT so many times.
expand() {
    local line run
    while IFS= read -r line; do
        while [[ $line =~ ^(.*)\{([0-9]+)\ ([^}]*)\}(.*)$ ]]; do
            printf -v run "%${BASH_REMATCH[2]}s" ''
            line=${BASH_REMATCH[1]}${run// /"${BASH_REMATCH[3]}"}${BASH_REMATCH[4]}
        done
        printf '%s\n' "$line"
    done
}

# Makes the kept folder. Its text has a line for each file with its length, and below it the places that have bytes which aren't 0.
unpack() {
    local line name place bytes
    mkdir "$1"
    while IFS= read -r line; do
        case $line in
            ' '*)
                read -r place bytes <<<"$line"
                basenc --base16 -d <<<"$bytes" | dd of="$1/$name" bs=65536 seek="$place" oflag=seek_bytes conv=notrunc status=none
                ;;
            *)
                name=${line% *}
                truncate -s "${line#* }" "$1/$name"
                ;;
        esac
    done < <(expand <"$kept/folder")
}
if ! basenc --base16 </dev/null >/dev/null 2>&1; then
    skip 'folders of the first version' 'basenc is missing'
    finish
fi
unpack "$room/first"
for it in list verify streams; do
    printf -v "first_$it" %s "$(expand <"$kept/$it")"
done
expand <"$kept/lines" >"$room/lines"
# (the one that was dirty is dropped by an opening, and not by what only reads)
first_sound=${first_verify/$'\n'dropped*Dirty/}
first_line=${first_verify##*$'\n'}
raised='00030000 00000000 00106bfc 00000000'

# Runs the program with arguments, and compares the status and all that is said: NAME FOLDER STATUS OUTPUT WORDS
says() {
    run "$2" "${@:5}"
    is "$1" "$3 $4" "$status $said$complained"
}
# A fresh copy of a folder.
copy() {
    rm -rf "$room/copy"
    cp -a "$1" "$room/copy"
}
# A folder is raised, with this sum: NAME WORDS
is_raised() {
    is "$1: the index" "$2" "$(words_of "$room/copy" 4 12 48 52)"
}

# The kept folder: what only reads leaves it, and a run that opens it finds what the first program found.
before=$(both "$room/first")
run "$room/first" inspect index
is 'the kept folder: its index' $'0 magic c103cac3\nversion 00020000\nnum_entries 00000009\nnum_bytes 00107d95' "$status $(head -n 4 <<<"$said")"
says 'the kept folder: verify' "$room/first" 0 "$first_verify" verify
is 'the kept folder is left by both' "$before" "$(both "$room/first")"
copy "$room/first"
says 'the kept folder: list' "$room/copy" 0 "$first_list" list
is_raised 'the kept folder, once listed' "$raised"
says 'the kept folder: list again' "$room/copy" 0 "$first_list" list
says 'the kept folder: verify behind that' "$room/copy" 0 "$first_sound" verify
copy "$room/first"
cp "$room/lines" "$room/input"
says 'the kept folder: each stream' "$room/copy" 1 "$first_streams" session
says 'the kept folder: each stream again' "$room/copy" 1 "$first_streams" session
: >"$room/input"
is_raised 'the kept folder, once read' "$raised"
says 'the kept folder: verify once it is read' "$room/copy" 0 "$first_sound" verify

# Each of the other words raises it too.
while read -r line; do
    copy "$room/first"
    # shellcheck disable=SC2086
    run "$room/copy" $line
    is "$line: the version" '00030000 00000000' "$(words_of "$room/copy" 4 12)"
    run "$room/copy" verify
    is "$line: nothing is dropped" '0 0' "$status $(count_like 'dropped *' <<<"$said")"
done <<'END'
count
get plain/a 0
put plain/a 0
doom file
trim 0
gen 7 1
session
END

# Where the place of the other version's sum has any words, and those behind it: the sum is right then, and the others are as they were.
any='\001\002\003\004\377\376\375\374'
pad=$(printf '\\%03o' {1..200})
copy "$room/first"
put_back "$room/copy" '\377\377\377\377' "$any"
patch "$room/copy/index" 56 "$pad"
says 'any words: verify' "$room/copy" 0 "$first_verify" verify
says 'any words: list' "$room/copy" 0 "$first_list" list
is_raised 'any words' "$raised"
printf "$pad" >"$room/pad"
is 'any words: those that are not read stay' "$(od -An -tx1 "$room/pad")" "$(od -An -tx1 -j 56 -N 200 "$room/copy/index")"
patch "$room/copy/index" 12 '\377\377\377\377'
patch "$room/copy/index" 48 "$any"
says 'any words in the version that is made now: verify' "$room/copy" 0 "$first_sound" verify
says 'any words in the version that is made now: list' "$room/copy" 0 "$first_list" list
is_raised 'any words in the version that is made now' "$raised"
is 'any words in the version that is made now: those that are not read stay' "$(od -An -tx1 "$room/pad")" "$(od -An -tx1 -j 56 -N 200 "$room/copy/index")"

# The first program refuses a raised folder, and leaves it.
copy "$room/first"
run "$room/copy" count
old=${BLKCACHE_FIRST-}
if [ -z "$old" ] && git -C "$top" show ac28b00c:dist/x86_64-linux/blkcache >"$room/old" 2>/dev/null; then
    chmod +x "$room/old"
    old=$room/old
fi
if [ -x "$old" ]; then
    before=$(both "$room/copy")
    for line in count list verify 'put a 0' 'trim 0'; do
        # shellcheck disable=SC2086
        said=$("$old" "$room/copy" $line </dev/null 2>&1)
        is "the first program: $line" '7 damaged index 4 00030000' "$? $said"
    done
    is 'the first program writes nothing' "$before" "$(both "$room/copy")"
else
    skip 'what the first program says of a raised folder' 'BLKCACHE_FIRST names no program, and there is no history'
fi

# Which versions are damages, with their word; behind the length, and before the words after the version.
octal() {
    printf '\\%03o' $(($1 & 255)) $(($1 >> 8 & 255)) $(($1 >> 16 & 255)) $(($1 >> 24 & 255))
}
for it in 0 0x10000 0x20001 0x2FFFF 0x30001 0x40000 0xFFFFFFFF; do
    copy "$room/first"
    patch "$room/copy/index" 4 "$(octal $it)"
    before=$(both "$room/copy")
    printf -v wanted 'damaged index 4 %08x' $((it))
    says "version $it" "$room/copy" 7 "$wanted" count
    says "version $it: verify" "$room/copy" 7 "$wanted" verify
    is "version $it: the folder is left" "$before" "$(both "$room/copy")"
    patch "$room/copy/index" 24 '\001'
    says "version $it and a word after it" "$room/copy" 7 "$wanted" count
    truncate -s 262516 "$room/copy/index"
    says "version $it and another length" "$room/copy" 7 'damaged index 262512 00040174' count
done
copy "$room/first"
patch "$room/copy/data_1" 4 '\0\0\003\0'
says 'a block file with the version of the index' "$room/copy" 7 'damaged data_1 4 00030000' count

# A small folder: an entry is made where two of four have to go.
mkdir "$room/small"
{
    echo 'create 0 a'
    printf 'write 0 0 0 %078d\nclose 0\n' 0
    for it in b c d; do
        printf 'create 0 %s\nwrite 0 0 0 %0250d\nwrite 0 1 0 %0250d\nwrite 0 2 0 %098d\nclose 0\n' "$it" 0 0 0
    done
    printf 'create 0 e\nwrite 0 0 0 %0120d\n' 0
} >"$room/input"
run "$room/small" --max 1000 session
: >"$room/input"
is 'three items are left' $'0 evicted a\nevicted b\nok 60' "$status $(tail -n 3 <<<"$said")"
small=$'main e 60 0 0\nmain d 125 125 49\nmain c 125 125 49\nend 3'
small_words='00030000 00000000 00000295 00000000'
is 'three items are counted in the version that is made now' "$small_words" "$(words_of "$room/small" 4 12 48 52)"
put_back "$room/small" '\225\002\0\0' '\007\0\0\0\007\0\0\0'
is 'they are put back to the first version' '00020000 00000295 00000007 00000007' "$(words_of "$room/small" 4 12 48 52)"
before=$(both "$room/small")
says 'three items of the first version: verify' "$room/small" 0 $'kept 3\nitems 3 bytes 661' verify
run "$room/small" inspect index
is 'three items of the first version: the index' $'version 00020000\nnum_entries 00000003\nnum_bytes 00000295' "$(head -n 4 <<<"$said" | tail -n 3)"
is 'three items of the first version: both leave it' "$before" "$(both "$room/small")"
copy "$room/small"
says 'three items of the first version: count' "$room/copy" 0 'items 3 bytes 661' count
is_raised 'three items of the first version' "$small_words"
run "$room/copy" inspect index
is 'three items that were raised: the index' $'version 00030000\nnum_entries 00000003\nnum_bytes 00000000' "$(head -n 4 <<<"$said" | tail -n 3)"

# A kill at each word of an opening, and of the one after it at some.
if ! command -v cc >/dev/null || ! cc -shared -fPIC -o "$room/stopped.so" "$top/tests/stopped.c" -ldl 2>/dev/null; then
    skip 'a kill at each word of an opening' 'cc is missing'
    finish
fi
# Kills a count at the place with a number, or lets it end where it has no such place: NUMBER
stopped() {
    { STOPPED=$1 STOPPED_BETWEEN=words LD_PRELOAD=$room/stopped.so "$program" "$room/copy" count <"$room/input" >"$room/said" 2>"$room/complained"; } 2>/dev/null
    status=$?
}
# Kills the opening of a folder everywhere: NAME FOLDER LINE LIST WORDS. Behind every third place the next opening is killed too.
kills() {
    local name=$1 from=$2 number total next
    copy "$from"
    stopped 0
    is "$name, killed nowhere" "0 $3" "$status $(cat "$room/said")"
    total=$(cat "$room/complained")
    is "$name: there are places" yes "$([ "$total" -ge 6 ] && echo yes)"
    for ((number = 1; number <= total; number++)); do
        copy "$from"
        stopped "$number"
        is "$name, it is killed at place $number" 137 "$status"
        next=$((number / 3 % 6 + 1))
        [ $((number % 3)) != 0 ] || stopped "$next"
        says "$name, killed at place $number: count" "$room/copy" 0 "$3" count
        is_raised "$name, killed at place $number" "$5"
        says "$name, killed at place $number: list" "$room/copy" 0 "$4" list
        [ "$from" != "$room/first" ] || same_streams "$name, killed at place $number"
    done
    echo "$name: $total places"
}
same_streams() {
    cp "$room/lines" "$room/input"
    says "$1: each stream" "$room/copy" 1 "$first_streams" session
    : >"$room/input"
    says "$1: verify" "$room/copy" 0 "$first_sound" verify
}
kills 'three items of the first version' "$room/small" 'items 3 bytes 661' "$small" "$small_words"
kills 'the kept folder' "$room/first" "$first_line" "$first_list" "$raised"
finish
