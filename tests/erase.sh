# With BLKCACHE_ERASE=1 what is removed is gone: no byte of it is in any file of the folder, also after a kill and the next opening.
# Without it the bytes are found. ERASE_KILLS says which places of a kill are tried of each command: a number, so many that are drawn; all, those
# before each write, after its first word, midway and before its last; or words, those between any two words that are written. ERASE_PART=K/N tries
# the K-th of N parts of these places alone. ERASE_SEED is what the places, the bytes, the script and some lengths are drawn from: parts with the
# same seed are parts of the same records: the sums that are told, of all of a record but the bytes, are the same.
# Of each place it is asked that the next opening ends well, also where it is killed too (behind each third place); that no piece of what was
# removed is in any file then, and no byte in a block that is free or behind the end of a stream or a key; that each block that is marked and each
# external file has an owner; and that what the command leaves alone has its bytes. But for all of them, the places are replayed from a record of
# what the command wrote as it ran once (tests/replayed.py): a folder that was tried isn't tried again, and it is asked besides, of each write, that
# what gets out of use is blank before it does. At each place that is drawn, and at 16 of words, the program is killed indeed, and has to leave the
# replayed folder. Without python3 the program is killed at so many places in even steps instead. In every run five records are replayed that leave
# out one byte of the zeros, one of a program that doesn't erase, and one of openings that don't: each has to be refused, five of the seven by what
# is found behind a kill. So has a replay that puts no folder aside, and one that compares no kill.
# Block files from data_4 on are left out: each is made when another is full, and a folder with a full one takes too long to look through.
. "$(dirname "${BASH_SOURCE[0]}")/common.sh"

for tool in awk grep basenc; do
    type -P "$tool" >/dev/null || {
        skip 'what is erased' "$tool is missing"
        finish
    }
done
places_of_each=${ERASE_KILLS:-16}
if [[ ! $places_of_each =~ ^(all|words|[1-9][0-9]{0,5})$ ]]; then
    is 'ERASE_KILLS is a number, all or words' 'one of these' "$places_of_each"
    finish
fi
part=${ERASE_PART:-1/1}
if [[ ! $part =~ ^[1-9][0-9]{0,5}/[1-9][0-9]{0,5}$ ]] || [ "${part%/*}" -gt "${part#*/}" ]; then
    is 'ERASE_PART is K/N' 'a part, and how many there are' "$part"
    finish
fi
part_of=${part#*/} part=${part%/*}
seed=${ERASE_SEED:-$RANDOM}

# Letters and digits that are drawn, so that no 16 of them are anywhere by chance. Each secret begins at a multiple of 16, and is found
# by its pieces of 16.
pool=$(awk -v seed="$seed" -v from=ABCDEFGHIJKLMNOPQRSTUVWXYZabcdefghijklmnopqrstuvwxyz0123456789 '
    BEGIN { srand(seed); for (it = 0; it < 280000; it++) printf "%s", substr(from, int(rand() * 62) + 1, 1) }')
digits=$(printf %s "$pool" | od -An -v -tx1 | tr -d ' \n')
drawn=0
fold -w 16 <<<"$pool" >"$room/all_pieces"
cp "$room/all_pieces" "$room/pieces"

# Of all pieces only those that were drawn are looked for from here on, since a search for many takes long.
looks_for_drawn() {
    head -n $((drawn / 16)) "$room/all_pieces" >"$room/pieces"
}

# Leaves a secret of so many bytes, and its digits.
secret() {
    text=${pool:drawn:$1}
    data=${digits:drawn * 2:$1 * 2}
    drawn=$((drawn + ($1 + 15) / 16 * 16))
}

# Prints the pieces that are in the files of a folder, each as often as it does.
found_in() {
    cat "$1"/* | grep -aoFf "$room/pieces" | sort
}

# Prints the pieces that the program gives of a folder, each as often as it does: those of the keys, by their rows, and of the streams.
# Where the runs of sparse data begin is in sparse_places, in whole blocks of 1024: of a block that isn't whole at its start nothing is given.
sparse_places=
given_of() {
    run "$1" list
    cp "$room/said" "$room/rows"
    awk -v places="$sparse_places" '
        BEGIN { count = split(places, place, " ") }
        $1 == "main" || $1 == "sparse" { print "open 0", $2 }
        $1 == "main" { for (it = 0; it < 3; it++) if ($(3 + it)) print "read 0", it, 0, 99999999 }
        $1 == "sparse" { for (it = 1; it <= count; it++) print "sread 0", place[it], 1048576 }
        $1 == "main" || $1 == "sparse" { print "close 0" }' "$room/rows" >"$room/input"
    run "$1" session
    : >"$room/input"
    # The data of a reply are followed by a line end here, as rows are.
    awk '$1 == "data" && $2 > 0 { print toupper($3) "0A" }' "$room/said" | basenc --base16 -d -i | cat - "$room/rows" | grep -aoFf "$room/pieces" | sort
}

# Prints how many pieces are in the files of a folder that are none of what it holds, or are there more often.
left_in() {
    found_in "$1" >"$room/found"
    given_of "$1" >"$room/given"
    comm -23 "$room/found" "$room/given" | wc -l
}

# Prints how many blocks of a folder that are not marked have a byte that isn't 0.
blocks_left_in() {
    local file size
    for file in "$1"/data_*; do
        size=$(($(od -An -tu4 -j12 -N4 "$file")))
        od -An -v -tu1 -w8112 -j80 -N8112 "$file"
        # (a line of * stands for blocks that equal the one before them)
        od -Ad -tx1 -w"$size" -j8192 "$file" | awk -v size="$size" '
            $1 == "*" { next }
            { number = ($1 - 8192) / size; sub(/^[0-9]+/, "") }
            has { for (it = last + 1; it < number; it++) print "block", it }
            { last = number; has = /[1-9a-f]/ }
            has { print "block", number }'
    done | awk '
        $1 != "block" { for (it = 1; it <= NF; it++) map[it - 1] = $it; next }
        int(map[int($2 / 8)] / 2 ^ ($2 % 8)) % 2 == 0 { left++ }
        END { print left + 0 }'
}

# Prints how many bytes after a file's header are not 0.
bytes_in() {
    tail -c +8193 "$1" | tr -d '\0' | wc -c
}

# Prints how many digits that are not 0 are in the storage of a folder's entries without being explained by them: behind the ends of streams and
# keys, in the blocks or in the file of each, and where a record has no field. What they own is left in the file owned.
behind_ends_in() {
    local sum=0 words word node name value it at size place room_of file rest key_at
    local -A of
    # (digits of a file from a place on: FILE PLACE COUNT)
    add_digits() {
        [ "$3" -gt 0 ] || return
        rest=$(od -An -v -tx1 -j"$2" -N"$3" "$1")
        rest=${rest//[ 0$'\n']/}
        sum=$((sum + ${#rest}))
    }
    # (an address: its file, place and size)
    find_at() {
        at=$1
        case $((at >> 28 & 7)) in
            0)
                printf -v file 'f_%06x' $((at & 268435455))
                echo "$file" >>"$room/owned"
                place=0 room_of=0
                [ ! -f "$folder_of/$file" ] || room_of=$(stat -c %s "$folder_of/$file")
                return
                ;;
            1) room_of=36 ;;
            2) room_of=256 ;;
            3) room_of=1024 ;;
            4) room_of=4096 ;;
        esac
        file=data_$((at >> 16 & 255))
        for ((it = 0; it <= (at >> 24 & 3); it++)); do
            echo "$file $(((at & 65535) + it))"
        done >>"$room/owned"
        place=$((8192 + (at & 65535) * room_of)) room_of=$((((at >> 24 & 3) + 1) * room_of))
    }
    local folder_of=$1
    : >"$room/owned"
    words=$("$program" "$1" inspect list | awk '$1 == "node" { print $2, $4 }')
    while read -r node word; do
        [ -n "$word" ] || continue
        of=()
        while read -r name value; do
            of[$name]=$value
        done < <("$program" "$1" inspect entry "$word")
        find_at $((16#$node))
        find_at $((16#$word))
        key_at=96
        [ $((16#${of[long_key]})) != 0 ] || key_at=$((96 + 16#${of[key_len]}))
        add_digits "$1/$file" $((place + 12)) 8
        add_digits "$1/$file" $((place + 76)) 16
        add_digits "$1/$file" $((place + key_at)) $((room_of - key_at))
        of[addr4]=${of[long_key]} of[size4]=${of[key_len]}
        for name in 0 1 2 3 4; do
            at=$((16#${of[addr$name]})) size=$((16#${of[size$name]}))
            [ "$at" != 0 ] || continue
            find_at "$at"
            add_digits "$1/$file" $((place + size)) $((room_of - size))
        done
    done <<<"$words"
    echo "$sum"
}

# Prints how many blocks of a folder are marked that are not in the file owned, or are in it without a mark, and how many external files
# are not in it, or are missing.
unowned_in() {
    local file
    for file in "$1"/*; do
        case ${file##*/} in
            f_*) echo "${file##*/}" ;;
            data_*) od -An -v -tu1 -w8112 -j80 -N8112 "$file" | awk -v name="${file##*/}" '
                { for (it = 1; it <= NF; it++) if ($it > 0) for (bit = 0; bit < 8; bit++) if (int($it / 2 ^ bit) % 2) print name, (it - 1) * 8 + bit }' ;;
        esac
    done | sort | comm -3 - <(sort -u "$room/owned") | wc -l
}

# Nothing is left: the block files hold zeros after their headers, and there is no other.
is_blank() {
    is "$1" '0 0 0 0 ' "$(bytes_in "$2/data_0") $(bytes_in "$2/data_1") $(bytes_in "$2/data_2") $(bytes_in "$2/data_3") $(cd "$2" && ls | grep -E '^(f_|data_[4-9])')"
}

# Prints these four numbers of each folder, and with a file of lines a sum of what the program answers to them: LINES FOLDERS. With python3
# one process does so for all of them.
looks() {
    local folder rest sum
    if [ "$has_python" = yes ]; then
        "$python" -S -B "$top/tests/looked.py" "$program" "$room/pieces" "$sparse_places" "$@"
        return
    fi
    for folder in "${@:2}"; do
        # What is in its blocks comes first, since an opening that asks for its streams may mend what nobody owns.
        rest="$(blocks_left_in "$folder") $(behind_ends_in "$folder") $(unowned_in "$folder")"
        rest="$(left_in "$folder") $rest"
        sum=
        [ -z "$1" ] || sum=$(timeout 60 "$program" "$folder" session <"$1" 2>/dev/null | sha256sum)
        echo "$rest ${sum%% *}"
    done
}
# Leaves the four numbers of a folder.
look() {
    read -r left blocks behind unowned < <(looks '' "$1")
}
# The two ways to look find the same in a folder.
both_look() {
    [ "$has_python" = yes ] || return
    is "$1: python3 finds what the shell does" "$(has_python=no looks '' "$2")" "$(looks '' "$2")"
}
# (its own path, since what the name leads to may be a script that starts it)
has_python=no
if python=$(python3 -S -c 'import sys; print(sys.executable)' 2>/dev/null) && [ -x "$python" ]; then
    has_python=yes
fi

# What is left is none of what was removed.
is_gone() {
    local left blocks behind unowned
    look "$2"
    is "$1: no piece is left" 0 "$left"
    is "$1: no block that is free holds a byte" 0 "$blocks"
    is "$1: no byte is left behind the end of a stream or a key" 0 "$behind"
    is "$1: each block that is marked has an owner, and each external file" 0 "$unowned"
}

# Runs a script, of which no line may be refused.
plays() {
    run "$@" session
    : >"$room/input"
    is "a script of ${1##*/} is done" '0 0' "$status $(grep -cvE '^(ok|data|evicted)' "$room/said")"
}

# Which values erase, and which are no values. What is no value does nothing.
unset BLKCACHE_ERASE
folder=$room/values
mkdir "$folder"
secret 2000
hex=$data
printf 'create 0 page\nwrite 0 0 0 %s\nclose 0\n' "$hex" >"$room/input"
plays "$folder"
looks_for_drawn
before=$(both "$folder")
is_no_value() {
    BLKCACHE_ERASE=$1 run "$folder" "${@:2}"
    is "BLKCACHE_ERASE is [$1], ${*:2}" '2 usage' "$status $said$complained"
}
for value in 2 01 00 yes true ' 1' '1 ' -1 +1 1.0 $'\xff' $'1\xff'; do
    is_no_value "$value" doom page
done
for words in count list 'get page 0' 'put page 0' 'trim 0' verify 'inspect list' session 'gen 1 9' no-word-of-it; do
    # shellcheck disable=SC2086
    is_no_value yes $words
done
is 'values that are none: the folder' "$before" "$(both "$folder")"
for value in unset '' 0 1; do
    rm -rf "$room/try"
    cp -a "$folder" "$room/try"
    before=$(both "$room/try")
    [ "$value" = unset ] || export BLKCACHE_ERASE=$value
    for words in verify 'inspect list' 'inspect index' 'inspect file 1'; do
        # shellcheck disable=SC2086
        run "$room/try" $words
        is "BLKCACHE_ERASE is [$value], $words" "0 $(env -u BLKCACHE_ERASE "$program" "$folder" $words)" "$status $said"
    done
    is "BLKCACHE_ERASE is [$value], words that only read: the folder" "$before" "$(both "$room/try")"
    run "$room/try" doom page
    is "BLKCACHE_ERASE is [$value], doom" '0 ok' "$status $said"
    look "$room/try"
    is "BLKCACHE_ERASE is [$value], pieces that are left" "$([ "$value" = 1 ] && echo 0 || echo 125)" "$left"
    run "$room/try" no-word-of-it
    is "BLKCACHE_ERASE is [$value], other words" '2 usage' "$status $said"
done
unset BLKCACHE_ERASE

# Entries whose keys and streams have each storage: the bytes of the key, and of the streams.
drawn=0
entries=('40 1023 112 256' '400 1024 4095 2000' '920 4096 16384 5000' '1008 16400 32 304' '3000 40000 16 704' '9008 16 0 12000' '20000 512 3008 30000')
declare -a keys lines
expected=0
for number in "${!entries[@]}"; do
    read -r -a sizes <<<"${entries[number]}"
    secret "${sizes[0]}"
    keys[number]=$text
    lines[number]="create 0 $text"$'\n'
    for stream in 0 1 2; do
        secret "${sizes[stream + 1]}"
        lines[number]+="write 0 $stream 0 ${data:--}"$'\n'
    done
    for size in "${sizes[@]}"; do
        # What has a file of its own is no longer found once that is removed.
        [ "$size" -gt 16384 ] || expected=$((expected + size / 16))
    done
done
secret 48
sparse=$text
sparse_places='0 1047552 2097152'
secret 3008
parts="swrite 0 0 $data"$'\n'
secret 4000
parts+="swrite 0 1047552 $data"$'\n'
secret 20000
parts+="swrite 0 2097152 $data"$'\n'
secret 1600
stays=$data
looks_for_drawn

# Makes a folder with all these, and one more entry, which stays.
fill() {
    rm -rf "$1"
    mkdir "$1"
    {
        for number in "${!entries[@]}"; do
            printf '%sclose 0\n' "${lines[number]}"
        done
        printf 'create 0 %s\n%sclose 0\n' "$sparse" "$parts"
        printf 'create 0 stays\nwrite 0 0 0 %s\nclose 0\n' "$stays"
    } >"$room/input"
    plays "$1"
}

# Each way in which all but one of them are removed: prints the lines of a session, or runs the program.
by_doomkey() {
    printf 'doomkey %s\n' "${keys[@]}" "$sparse" >"$room/input"
    plays "$1"
}
by_doom_of_open() {
    printf 'open 0 %s\ndoom 0\nclose 0\n' "${keys[@]}" "$sparse" >"$room/input"
    plays "$1"
}
by_doom_at_the_end() {
    local number=0 key
    for key in "${keys[@]}" "$sparse"; do
        printf 'open %d %s\ndoomkey %s\n' "$number" "$key" "$key"
        number=$((number + 1))
    done >"$room/input"
    plays "$1"
}
by_eviction() {
    printf 'create 0 more\nclose 0\n' >"$room/input"
    plays "$1" --items 2
}
by_bytes() {
    printf 'create 0 more\nwrite 0 0 0 6d6f7265\nclose 0\n' >"$room/input"
    plays "$1" --max 3000
}
by_trim() {
    run "$1" trim 1700
    is 'it is trimmed' 0 "$status"
}
by_doom() {
    local key
    for key in "${keys[@]}" "$sparse"; do
        run "$1" doom "$key"
        is 'it is doomed' '0 ok' "$status $said"
    done
}
stays() {
    run "$1" get stays 0
    is "$2: the one that stays" $'0 ok\ndata 1600 '"$stays"$'\nok' "$status $said"
}
for way in by_doom by_doomkey by_doom_of_open by_doom_at_the_end by_eviction by_bytes by_trim; do
    export BLKCACHE_ERASE=1
    fill "$room/gone"
    "$way" "$room/gone"
    is_gone "$way" "$room/gone"
    stays "$room/gone" "$way"
    run "$room/gone" trim 0
    is_blank "$way, and then all" "$room/gone"
    unset BLKCACHE_ERASE
    fill "$room/kept"
    "$way" "$room/kept"
    look "$room/kept"
    is "$way, without erasing: each piece in a block is left" yes "$([ "$left" -ge "$expected" ] && echo yes)"
done
both_look "$way" "$room/kept"
rm -rf "$room/gone" "$room/kept"

# Streams that are cut: from one size to another, in the same storage and into another.
cuts='1008:992 1008:784 1008:512 1008:256 1008:16 1008:0 4080:4064 4080:3088 4080:2048 4080:1024 4080:1008 4080:96 4080:0 16384:16368 16384:12304 16384:8192 16384:4096
16384:4080 16384:160 16384:0 20000:19984 24000:16400 20000:16384 20000:4000 20000:96 20000:0'
cut_all() {
    local it from to number=0
    rm -rf "$1"
    mkdir "$1"
    drawn=0
    : >"$room/cutting"
    for it in $cuts; do
        from=${it%:*} to=${it#*:}
        secret "$from"
        printf 'create 0 cut%d\nwrite 0 0 0 %s\nclose 0\n' "$number" "$data"
        # By a cut without data and with some, and as the first change of an entry that is open or not.
        secret 16
        case $2 in
            cut) printf 'open 0 cut%d\ncut 0 0 %d -\nclose 0\n' "$number" "$to" >>"$room/cutting" ;;
            data) printf 'open 0 cut%d\ncut 0 0 %d %s\nclose 0\n' "$number" "$((to < 16 ? 0 : to - 16))" "$data" >>"$room/cutting" ;;
            twice) printf 'open 0 cut%d\ncut 0 0 %d %s\ncut 0 0 %d -\nclose 0\n' "$number" "$((from - 16))" "$data" "$to" >>"$room/cutting" ;;
            odd) printf 'open 0 cut%d\ncut 0 0 %d -\nclose 0\n' "$number" "$((to > 7 ? to - 7 : 0))" >>"$room/cutting" ;;
        esac
        number=$((number + 1))
    done >"$room/input"
    plays "$1"
    looks_for_drawn
    cp "$room/cutting" "$room/input"
    plays "$1"
}
# How many bytes the streams of a folder have that are stored in blocks of a size: those of a length from one number to another.
bytes_from() {
    run "$1" list
    awk -v from="$2" -v to="$3" '$1 == "main" { for (it = 3; it <= 5; it++) if ($it >= from && $it <= to) sum += $it } END { print sum + 0 }' "$room/said"
}
for how in cut data twice odd; do
    export BLKCACHE_ERASE=1
    cut_all "$room/gone" "$how"
    is_gone "cut ($how)" "$room/gone"
    is "cut ($how): the bytes in blocks of 1024" "$(bytes_from "$room/gone" 1024 4095)" "$(bytes_in "$room/gone/data_2")"
    is "cut ($how): the bytes in blocks of 4096" "$(bytes_from "$room/gone" 4096 16384)" "$(bytes_in "$room/gone/data_3")"
    run "$room/gone" trim 0
    is_blank "cut ($how), and then all" "$room/gone"
    unset BLKCACHE_ERASE
    cut_all "$room/kept" "$how"
    look "$room/kept"
    is "cut ($how), without erasing: pieces are left" yes "$([ "$left" -gt 1000 ] && echo yes)"
    is "cut ($how), without erasing: bytes behind the ends are left" yes "$([ "$behind" -gt 5000 ] && echo yes)"
done
both_look "cut ($how)" "$room/kept"

# Free blocks that equal each other are found each, also the last ones.
rm -rf "$room/kept"
cp -a "$room/made" "$room/kept"
truncate -s $((8192 + 7 * 256)) "$room/kept/data_1"
for number in 1 2 3 5 6; do
    patch "$room/kept/data_1" $((8192 + number * 256 + 100)) x
done
is 'free blocks with the same bytes, by the shell' 5 "$(blocks_left_in "$room/kept")"
look "$room/kept"
is 'free blocks with the same bytes' 5 "$blocks"

# Remains of fewer bytes than a piece are found where nothing live explains them: in a marked block that no entry owns, in an external file that
# nobody owns, and behind the key in a record.
remains() {
    local left blocks behind unowned
    cp -a "$room/kept" "$room/again"
    look "$room/kept"
    is "remains $1: found" "$2" "$blocks $behind $unowned"
    has_python=no look "$room/again"
    is "remains $1: found by the shell" "$2" "$blocks $behind $unowned"
    rm -rf "$room/kept" "$room/again"
    cp -a "$room/listed" "$room/kept"
}
rm -rf "$room/kept"
cp -a "$room/listed" "$room/kept"
remains 'of none' '0 0 0'
patch "$room/kept/data_1" 80 '\003'
patch "$room/kept/data_1" $((8192 + 256 + 64)) remains-12-b
remains 'of 12 bytes in a marked block' '0 0 1'
printf 'remains-of-23-bytes-here' | head -c 23 >"$room/kept/f_000001"
remains 'of 23 bytes in an external file' '0 0 1'
: >"$room/kept/f_000001"
remains 'of a name of an external file' '0 0 1'
patch "$room/kept/data_1" $((8192 + 96 + 2)) UUUUUUUUUUUUUUU
remains 'of 15 bytes behind the key in a record' '0 30 0'

# Streams that grow into another storage, that are written anew by put, and an entry that is made anew under its key.
grown() {
    local size
    rm -rf "$1"
    mkdir "$1"
    drawn=0
    printf 'create 0 grows\n' >"$room/input"
    local at=0
    for size in 112 144 256 512 3072 8192 4304 30000; do
        secret "$size"
        printf 'write 0 0 %d %s\n' "$at" "$data"
        at=$((at + size))
    done >>"$room/input"
    printf 'close 0\n' >>"$room/input"
    looks_for_drawn
    plays "$1"
}
replaced() {
    local size
    rm -rf "$1"
    mkdir "$1"
    drawn=0
    for size in 16000 9008 4096 3008 512 16 1008 48 40000 32 16400 16368; do
        secret "$size"
        printf %s "$text" >"$room/input"
        run "$1" put page 1
        is "put of $size" $'0 ok\nok '"$size"$'\nok' "$status $said"
    done
    looks_for_drawn
    : >"$room/input"
}
anew() {
    local size
    rm -rf "$1"
    mkdir "$1"
    drawn=0
    for size in 9008 3008 304 20000; do
        secret "$size"
        printf 'create 0 page\nwrite 0 0 0 %s\nclose 0\ndoomkey page\n' "$data"
    done >"$room/input"
    looks_for_drawn
    plays "$1"
}
for way in grown replaced anew; do
    export BLKCACHE_ERASE=1
    "$way" "$room/gone"
    is_gone "$way" "$room/gone"
    run "$room/gone" trim 0
    is_blank "$way, and then all" "$room/gone"
    unset BLKCACHE_ERASE
    "$way" "$room/kept"
    look "$room/kept"
    is "$way, without erasing: pieces are left" yes "$([ "$left" -gt 0 ] && echo yes)"
done

# The bytes of a file that is removed or cut, as one sees them who opened it before.
for erasing in 1 ''; do
    rm -rf "$room/gone"
    mkdir "$room/gone"
    drawn=0
    secret 40000
    printf %s "$text" >"$room/input"
    run "$room/gone" put page 0
    exec 7<"$room/gone/f_000001"
    : >"$room/input"
    BLKCACHE_ERASE=$erasing run "$room/gone" doom page
    is "a file that was open, with erasing [$erasing]" "40000 $([ "$erasing" = 1 ] && echo 0 || echo 40000)" "$(wc -c </dev/fd/7) $(tr -d '\0' </dev/fd/7 | wc -c)"
    exec 7<&-
done

# A folder that is made anew: nothing of the old one is left.
export BLKCACHE_ERASE=1
fill "$room/gone"
rm "$room/gone/index"
run "$room/gone" count
is 'a folder without an index is made anew' "0 $empty_line" "$status $said"
is_blank 'a folder that is made anew' "$room/gone"
unset BLKCACHE_ERASE

# Every reply is the same with erasing and without: those of a script that is drawn, of the subcommands after it, and of a game. After it
# no block that is free holds a byte.
draw_script "$seed" 2500 >"$room/drawn"
for limits in '--max 400000 --items 12' '--max 9000000 --items 60'; do
    for erasing in 0 1; do
        rm -rf "$room/drawn$erasing"
        mkdir "$room/drawn$erasing"
        export BLKCACHE_ERASE=$erasing
        for words in session list count verify "$limits" 'gen 5 400' list verify; do
            cp "$room/drawn" "$room/input"
            [ "$words" != "$limits" ] || words=session
            # shellcheck disable=SC2086
            run "$room/drawn$erasing" $limits $words
            echo "$status $words"
            cat "$room/said"
        done >"$room/all$erasing"
        : >"$room/input"
    done
    is "a script that is drawn, $limits (ERASE_SEED=$seed)" '' "$(are_same "$room/all0" "$room/all1" || echo 'other replies')"
    is "a script that is drawn, $limits: no block that is free holds a byte (ERASE_SEED=$seed)" 0 "$(look "$room/drawn1" && echo "$blocks")"
    is "a script that is drawn, $limits: the control" yes "$(look "$room/drawn0" && [ "$blocks" -gt 0 ] && echo yes)"
    run "$room/drawn1" trim 0
    is_blank "a script that is drawn, $limits, and then all (ERASE_SEED=$seed)" "$room/drawn1"
done
unset BLKCACHE_ERASE

# A kill at places of what is written, and the next opening, which is killed too behind each third of them.
sed 's/tv_sec = 4102444800/tv_sec = 1800000000/' "$top/tests/stopped.c" >"$room/earlier.c"
if ! command -v cc >/dev/null || ! cc -shared -fPIC -o "$room/stopped.so" "$top/tests/stopped.c" -ldl 2>/dev/null ||
    ! cc -shared -fPIC -o "$room/earlier.so" "$room/earlier.c" -ldl 2>/dev/null; then
    skip 'what a kill leaves' 'cc is missing'
    finish
fi
is 'the clock of the bases is another' 1 "$(grep -c 'tv_sec = 1800000000;' "$room/earlier.c")"
if [ "$has_python" = no ]; then
    skip 'kills between any two words, and records that leave out a byte' 'python3 is missing'
    [ "$places_of_each" != words ] || finish
fi
# Runs the program, with the input that is fed, until the place with a number: NUMBER FOLDER WORDS
stopped() {
    { STOPPED=$1 LD_PRELOAD=$room/stopped.so "$program" "${@:2}" <"$room/fed" >"$room/said" 2>"$room/complained"; } 2>/dev/null
    status=$?
}
# Runs a script as plays does, under a clock that stands still: what it leaves is the same each time, also the keys of parts, which have a time in
# them. It is earlier than the clock of the commands, so that each time that these write is another.
makes() {
    mkdir -p "$1"
    timeout 60 env LD_PRELOAD="$room/earlier.so" "$program" "$1" session <"$room/input" >"$room/said" 2>"$room/complained"
    status=$?
    : >"$room/input"
    is "a script of ${1##*/} is done" '0 0' "$status $(grep -cvE '^(ok|data|evicted)' "$room/said")"
}
# What is replayed is in memory where there is room for it.
scratch=$(mktemp -d /dev/shm/erase.XXXXXX 2>/dev/null) || scratch=$(mktemp -d)
trap 'rm -rf "$room" "$scratch"' EXIT
export BLKCACHE_ERASE=1
drawn=0
secret 40; first=$text
secret 304; second=$text
secret 5008; third=$text
{
    secret 112; printf 'create 0 %s\nwrite 0 0 0 %s\n' "$first" "$data"
    secret 2000; printf 'write 0 1 0 %s\n' "$data"
    secret 8192; printf 'write 0 2 0 %s\nclose 0\n' "$data"
    secret 20000; printf 'create 0 %s\nwrite 0 0 0 %s\nclose 0\n' "$second" "$data"
    secret 304; printf 'create 0 %s\nwrite 0 0 0 %s\nclose 0\n' "$third" "$data"
    sparse_places='1024 1048576'
    secret 3008; printf 'create 0 sparse\nswrite 0 1024 %s\n' "$data"
    secret 17008; printf 'swrite 0 1048576 %s\nclose 0\n' "$data"
} >"$room/input"
makes "$room/base"
secret 1008; new=$text
secret 4000; longer=$data
secret 1600; same=$text
secret 12000; much=$data
looks_for_drawn

# What was found of a folder, by its names and the sums of its files: kills at many places lead to the same ones.
declare -A looked
places=0
killed_openings=0
images=
# Shows that nothing of what was removed is left in a folder, and that the entries that stay have their bytes: NAME FOLDER
is_clean() {
    local sum
    # How many sessions there were is no matter, nor when the folder was made.
    patch "$2/index" 20 '\0\0\0\0'
    patch "$2/index" 40 '\0\0\0\0\0\0\0\0'
    sum=$(cksum -- "$2"/*)
    [ -n "${looked[$sum]-}" ] || looked[$sum]=$(looks "$room/told" "$2")
    is "$1: pieces, free blocks with bytes, bytes behind ends, what has no owner, what stays" "0 0 0 0 $told" "${looked[$sum]}"
}
# A copy of the folder on which the commands are tried.
base=$room/base
take() {
    rm -rf "$room/$1"
    cp -a "$2" "$room/$1"
}
# Feeds the input to a command, and asks what is told of the entries of the list stay, which have to stay.
feed() {
    local key
    printf %b "$1" >"$room/fed"
    for key in "${stay[@]}"; do
        printf '%s\n' "open 0 $key" 'read 0 0 0 100000' 'read 0 1 0 100000' 'read 0 2 0 100000' \
            'sread 0 1024 4096' 'sread 0 1048576 32768' 'sread 0 2097152 32768' 'close 0'
    done >"$room/told"
    take try "$base"
    told=$(looks "$room/told" "$room/try")
    told=${told##* }
    # What was found before was of other entries.
    looked=()
}
# Replays places of a command, and leaves what was wrong, and the counts: PART COUNT NAMES OPENINGS NAME INPUT WORDS. Where there is a COUNT, so
# many places are drawn. Where there are NAMES, a byte is left out of the zeros over the files whose names begin so. Where there is a value
# OPENINGS, the openings have that one of BLKCACHE_ERASE. Where without is folders or kills, none is put aside, or compared.
without=
replay() {
    local options=()
    [ -z "$2" ] || options+=(--drawn "$2" "$seed $5")
    [ -z "$3" ] || options+=(--leave "$3")
    [ -z "$4" ] || options+=(--openings "$4")
    [ -z "$without" ] || options+=(--without "$without")
    feed "$6"
    rm -rf "${scratch:?}/out"
    mkdir "$scratch/out"
    tried=0 total=0 tried_images=0 openings=0 folders=0 compared=0 record=0
    "$python" -S -B "$top/tests/replayed.py" "${options[@]}" "$program" "$room/stopped.so" "$base" "$room/fed" "$scratch/out" "$1" -- "${@:7}" \
        >"$room/replayed" 2>&1 || echo 'wrong: it did not come to its end' >>"$room/replayed"
    wrong=$(grep -vx '[0-9 ]*' "$room/replayed")
    read -r tried total tried_images openings folders compared record < <(grep -x '[0-9][0-9 ]*' "$room/replayed")
}
# Prints what a replay has too few of, by its counts: each puts a folder aside, and the program is killed at as many places as it tried where
# these are drawn, and at one at least where it tried all.
too_few_of_replay() {
    local least=$tried
    [ "$places_of_each" != words ] || least=$((tried > 0))
    [ "$folders" -ge 1 ] || echo 'no folder'
    [ "$compared" -ge "$least" ] || echo "$compared kills of $least"
}
# Kills between any two words, replayed, those that are drawn or all: NAME INPUT WORDS
replays() {
    local told wrong tried total tried_images openings folders compared record number found from=$SECONDS
    if [ "$places_of_each" = words ]; then
        replay "$part/$part_of" '' '' '' "$@"
    else
        replay "$part/$part_of" "$places_of_each" '' '' "$@"
    fi
    is "$1: what is replayed$by_seed" '' "$wrong"
    is "$1: there are places" yes "$([ "$total" -gt 16 ] && echo yes)"
    is "$1: what is put aside and compared$by_seed" '' "$(too_few_of_replay)"
    for ((number = 1; number <= folders; number++)); do
        read -r found
        is "$1, $(cat "$scratch/out/left/$number.place")$by_seed: pieces, free blocks with bytes, bytes behind ends, what has no owner, what stays" \
            "0 0 0 0 $told" "$found"
    done < <(looks "$room/told" $(seq -f "$scratch/out/left/%g" "$folders"))
    places=$((places + tried)) killed_openings=$((killed_openings + openings)) images=$((${images:-0} + tried_images))
    echo "$1: $tried of $total places of the record $record, and $openings of the next openings: $tried_images folders, which openings" \
        "made $folders; $compared kills were compared; in $((SECONDS - from)) seconds"
}
# Zeros are left out: a byte of those over the files whose names begin with what is given, or all of those of the program (all), or of the
# openings alone (openings). This is refused at its word, by what the next opening leaves, behind a kill or behind none, or by both.
# HOW GIVEN NAME INPUT WORDS
planted() {
    local told wrong tried total tried_images openings folders compared record number found by='' left='' names=$2 of_openings=
    [ "$has_python" = yes ] || return
    case $2 in
        all) local -x BLKCACHE_ERASE=0 names= ;;
        openings) names='' of_openings=0 ;;
    esac
    replay 1/1 edges "$names" "$of_openings" "${@:3}"
    [[ $wrong != *' before it is blank'* ]] || by='at its word'
    [[ $wrong != *'did not come to its end'* ]] || by='by a replay that broke off'
    for ((number = 1; number <= folders; number++)); do
        read -r found
        [ "$found" = "0 0 0 0 $told" ] || case $(cat "$scratch/out/left/$number.place") in
            place*) left=' by what is left behind a kill' ;;
            *) [ -n "$left" ] || left=' by what is left' ;;
        esac
    done < <(looks "$room/told" $(seq -f "$scratch/out/left/%g" "$folders"))
    is "refused: $3, with zeros left out: $2" "$1" "$by$left"
}
# A replay without folders that are put aside, or without kills that are compared, is refused by its counts: WITHOUT COUNTS NAME INPUT WORDS
planted_without() {
    local told wrong tried total tried_images openings folders compared record without=$1 places_of_each=3
    [ "$has_python" = yes ] || return
    replay 1/1 3 '' '' "${@:3}"
    is "refused: $3, without $1" "$2" "$wrong$(too_few_of_replay)"
}
# Of each so many places one is tried, where all are asked for.
step=1
# With python3 places are replayed, unless all are asked for.
is_replayed=no by_seed=
if [ "$places_of_each" != all ] && [ "$has_python" = yes ]; then
    is_replayed=yes
    [ "$places_of_each" = words ] || by_seed=" (ERASE_SEED=$seed)"
fi
# Kills the program at places of what it writes: NAME INPUT WORDS. The entries that have to stay are those of the list stay. Behind each
# third place the next opening is killed too, at one of its own places, another each time.
kills() {
    local name=$1 number turn total stride told next tried=0 openings=0
    if [ "$is_replayed" = yes ]; then
        replays "$@"
        return
    fi
    feed "$2"
    take try "$base"
    stopped 0 "$room/try" "${@:3}"
    is "$name, killed nowhere" 0 "$status"
    total=$(cat "$room/complained")
    is "$name: there are places" yes "$([ "$total" -gt 16 ] && echo yes)"
    is_clean "$name, killed nowhere" "$room/try"
    case $places_of_each in all) stride=$step ;; *) stride=$((total / places_of_each)) ;; esac
    [ "$stride" -gt 0 ] || stride=1
    # In steps of a length each place of a step is met in its turn, so that not all are at the beginning of a write.
    for ((turn = 0; turn * stride < total; turn++)); do
        number=$((turn * stride + turn % stride + 1))
        [ "$number" -le "$total" ] || break
        [ $((turn % part_of)) = $((part - 1)) ] || continue
        take try "$base"
        stopped "$number" "$room/try" "${@:3}"
        is "$name, it is killed at place $number" 137 "$status"
        tried=$((tried + 1))
        if [ $((turn / part_of % 3)) = 0 ]; then
            take again "$room/try"
            stopped 0 "$room/again" count
            next=$(cat "$room/complained")
            next=$((turn / 3 * 7 % next + 1))
            stopped "$next" "$room/try" count
            is "$name, killed at place $number: the next opening is killed at place $next" 137 "$status"
            openings=$((openings + 1))
        fi
        # (with no other program beside it, since this is done so often)
        "$program" "$room/try" count </dev/null >"$room/said" 2>"$room/complained"
        status=$?
        said=
        read -r said <"$room/said"
        is "$name, killed at place $number: the next opening" '0 items' "$status ${said%% *}"
        is_clean "$name, killed at place $number" "$room/try"
    done
    places=$((places + tried)) killed_openings=$((killed_openings + openings))
    echo "$name: $tried of $total places, and $openings of the next openings, which left ${#looked[@]} folders"
}
stay=("$second" "$third" sparse)
kills 'doom of blocks' '' doom "$first"
kills 'put in smaller blocks' "$new" put "$first" 1
kills 'put in the same blocks' "$same" put "$first" 1
kills 'a cut within its blocks' "open 0 $first\ncut 0 2 8000 -\nclose 0\n" session
kills 'growth within a kind' "open 0 $first\nwrite 0 0 112 ${longer:0:1024}\nwrite 0 1 2000 ${longer:0:3200}\nwrite 0 2 8192 $longer\nclose 0\n" session
kills 'growth from blocks of 1024 to those of 4096' "open 0 $first\nwrite 0 1 2000 $longer\nclose 0\n" session
kills 'growth from blocks into a file' "open 0 $first\nwrite 0 2 8192 $much\nclose 0\n" session
kills 'cuts' "open 0 $first\ncut 0 0 64 -\ncut 0 1 1040 -\ncut 0 2 4096 -\ncut 0 2 512 -\nclose 0\n" session
stay=("$first" "$third" sparse)
kills 'doom of a file' '' doom "$second"
kills 'put in place of a file' "$new" put "$second" 0
kills 'growth of a file' "open 0 $second\nwrite 0 0 20000 $longer\nclose 0\n" session
kills 'a cut from a file into blocks' "open 0 $second\ncut 0 0 5000 -\nclose 0\n" session
stay=("$first" "$second" sparse)
kills 'doom with a long key' '' doom "$third"
stay=("$first" "$second" "$third")
kills 'doom of sparse data' '' doom sparse
stay=("$third" sparse)
kills 'growth, and a file that is cut' "open 0 $first\nwrite 0 0 64 $longer\nclose 0\nopen 0 $second\ncut 0 0 16400 -\nclose 0\n" session
kills 'doom of open entries' "open 0 $first\ndoom 0\nopen 1 $second\ndoom 1\nclose 1\nclose 0\n" session
stay=(sparse)
kills 'eviction' "$new" put more 0 --items 4
stay=("$third" sparse)
kills 'eviction by bytes, by a write' "create 0 more\nwrite 0 0 0 $longer\nclose 0\n" session --max 45000
stay=(sparse)
kills 'eviction by bytes of a key in blocks of 4096' "create 0 more\nwrite 0 0 0 6d6f7265\nclose 0\n" session --max 34000
stay=()
kills 'trim' '' trim 0
stay=("$third" sparse)
kills 'doom of entries that are open at the end' "open 0 $first\ndoomkey $first\nopen 1 $second\ndoomkey $second\n" session

# Zeros that are left out: of a block that is freed, of a file that is removed or cut, behind the end of a stream in its block, and all.
planted 'at its word by what is left behind a kill' data_ 'doom of blocks' '' doom "$first"
planted 'at its word' f_ 'doom of a file' '' doom "$second"
planted 'at its word' f_ 'a file that is cut' "open 0 $second\ncut 0 0 16400 -\nclose 0\n" session
planted ' by what is left behind a kill' data_ 'a cut in a block' "open 0 $first\ncut 0 2 8000 -\nclose 0\n" session
planted 'at its word by what is left behind a kill' all 'doom of blocks' '' doom "$first"
planted 'at its word by what is left behind a kill' openings 'doom of blocks' '' doom "$first"
planted_without folders 'no folder' 'doom of blocks' '' doom "$first"
planted_without kills '0 kills of 3' 'doom of blocks' '' doom "$first"

# Sparse data that are evicted: the others were used since.
take turned "$room/base"
printf '%s\nclose 0\n' "open 0 $first" "open 0 $second" "open 0 $third" >"$room/input"
makes "$room/turned"
base=$room/turned
stay=("$first" "$second" "$third")
kills 'eviction of sparse data' "$new" put more 0 --items 4

# A folder without an index, which is made anew. Most of what it writes are zeros over zeros, so where all are asked for, it is killed at each
# seventh. Of those between words each is replayed: where a word changes nothing, the folder is one that was tried.
take headless "$room/base"
rm "$room/headless/index"
base=$room/headless
stay=()
step=7 kills 'a folder that is made anew' '' count

# An opening that drops what a killed session left dirty, and the same of a folder of the first version, which is raised besides.
take dirty "$room/base"
coproc talk { LD_PRELOAD=$room/earlier.so exec "$program" "$room/dirty" session 2>"$room/complained"; }
talk_in=${talk[1]} talk_out=${talk[0]} talk_id=$talk_PID
replies=
for line in "open 0 $first" "write 0 0 64 $longer" "open 1 $second" "write 1 1 0 $longer" 'open 2 sparse' "swrite 2 2048 $longer"; do
    echo "$line" >&"$talk_in"
    read -r -t 20 reply <&"$talk_out"
    replies+="$reply, "
done
{ kill -9 "$talk_id" && wait "$talk_id"; } 2>/dev/null
is 'a session is killed' 'ok, ok 4000, ok, ok 4000, ok, ok 4000, ' "$replies"
run "$room/dirty" verify
is 'it leaves three dirty entries, one of them with two parts' '0 5' "$status $(grep -c '^dropped' "$room/said")"

# What an opening drops without erasing stays where it was, also behind one that erases, until its places are used and freed again.
take try "$room/dirty"
BLKCACHE_ERASE=0 run "$room/try" count
is 'a count that does not erase drops them' '0 items 1' "$status ${said% bytes*}"
look "$room/try"
is 'a count that does not erase leaves their pieces' yes "$([ "$left" -gt 400 ] && echo yes || echo "$left")"
all_left=$left
run "$room/try" count
look "$room/try"
is 'one that erases leaves them too' "$all_left" "$left"
# (in runs of one to four blocks of each size)
for ((number = 0; number < 40; number++)); do
    run_of=$((number % 4 + 1))
    printf "create 0 fills%d\nwrite 0 0 0 %0$((run_of * 480))d\nwrite 0 1 0 %0$((run_of * 2000 + 48))d\nwrite 0 2 0 %0$((run_of * 8000 + 192))d\nclose 0\n" "$number" 1 2 3
done >"$room/input"
plays "$room/try"
for ((number = 0; number < 40; number++)); do
    echo "doomkey fills$number"
done >"$room/input"
plays "$room/try"
look "$room/try"
is 'where their places were used and freed again they are gone' yes "$([ "$left" -lt "$all_left" ] && echo yes || echo "$left of $all_left")"

base=$room/dirty
stay=("$third")
kills 'an opening that drops entries' '' count
planted 'at its word by what is left behind a kill' data_ 'an opening that drops entries' '' count
take dirty_old "$room/dirty"
bytes=$("$program" "$room/dirty" verify | awk '/^items/ { print $4 }')
put_back "$room/dirty_old" "$(printf '\\%03o' $((bytes & 255)) $((bytes >> 8 & 255)) $((bytes >> 16 & 255)) $((bytes >> 24 & 255)))"
is 'a folder of the first version' 00020000 "$(words_of "$room/dirty_old" 4)"
base=$room/dirty_old
kills 'an opening that raises a folder' '' count

# Keys in blocks of 256 and of 1024 and in a file of their own, and the keys of parts, which have that of their entry.
drawn=0
secret 2000; first=$text
secret 20000; second=$text
secret 17008; third=$text
secret 1008; fourth=$text
{
    secret 304; printf 'create 0 %s\nwrite 0 0 0 %s\nclose 0\n' "$first" "$data"
    secret 1008; printf 'create 0 %s\nwrite 0 1 0 %s\nclose 0\n' "$second" "$data"
    secret 1008; printf 'create 0 %s\nswrite 0 1024 %s\n' "$third" "$data"
    secret 3008; printf 'swrite 0 1048576 %s\nclose 0\n' "$data"
    secret 304; printf 'create 0 %s\nwrite 0 2 0 %s\nclose 0\n' "$fourth" "$data"
    secret 1600; printf 'create 0 stays\nwrite 0 0 0 %s\nclose 0\n' "$data"
} >"$room/input"
makes "$room/keyed"
looks_for_drawn
base=$room/keyed
stay=("$second" "$third" "$fourth" stays)
kills 'doom with a key in blocks of 1024' '' doom "$first"
stay=("$first" "$third" "$fourth" stays)
kills 'doom with a key in a file' '' doom "$second"
stay=("$first" "$second" "$fourth" stays)
kills 'doom of sparse data with a key in files' '' doom "$third"
stay=("$first" "$second" "$third" stays)
kills 'doom with a key in blocks of 256' '' doom "$fourth"
stay=()
kills 'trim with keys of each size' '' trim 0
kills 'eviction with keys of each size' a put more 0 --items 1
kills 'eviction by bytes with keys of each size' "create 0 more\nwrite 0 0 0 6d6f7265\nclose 0\n" session --max 3000
stay=(stays)
kills 'trim of all but one' '' trim 1700

# Streams that are cut to nothing, and sparse parts in blocks of 1024 and 256 that grow: within 1024 and from there to 4096, and from 256 to 1024 and
# into a file.
drawn=0
{
    secret 304; printf 'create 0 one\nwrite 0 0 0 %s\n' "$data"
    secret 2000; printf 'write 0 1 0 %s\n' "$data"
    secret 5008; printf 'write 0 2 0 %s\nclose 0\n' "$data"
    secret 17008; printf 'create 0 two\nwrite 0 0 0 %s\nclose 0\n' "$data"
    sparse_places='1024 1048576 2097152'
    secret 304; printf 'create 0 sparse\nswrite 0 1024 %s\n' "$data"
    secret 512; printf 'swrite 0 1048576 %s\n' "$data"
    secret 512; printf 'swrite 0 2097152 %s\nclose 0\n' "$data"
    secret 1600; printf 'create 0 stays\nwrite 0 0 0 %s\nclose 0\n' "$data"
} >"$room/input"
makes "$room/small"
input='open 0 sparse\n'
secret 1008; input+="swrite 0 1328 $data\n"
secret 4000; input+="swrite 0 2336 $data\n"
secret 4000; input+="swrite 0 1048576 $data\n"
secret 17008; input+="swrite 0 2097152 $data\n"
looks_for_drawn
base=$room/small
stay=(two sparse stays)
kills 'cut to nothing in blocks' 'open 0 one\ncut 0 0 0 -\ncut 0 1 0 -\ncut 0 2 0 -\nclose 0\n' session
stay=(one sparse stays)
kills 'cut to nothing of a file' 'open 0 two\ncut 0 0 0 -\nclose 0\n' session
stay=(one two stays)
kills 'sparse parts that grow' "${input}close 0\n" session
kills 'doom of sparse data in blocks of 256' '' doom sparse

# From each storage into the others, those that no command above goes, and sparse data in blocks of 4096.
drawn=0
{
    printf 'create 0 grows\n'
    secret 112; printf 'write 0 0 0 %s\n' "$data"
    secret 304; printf 'write 0 1 0 %s\n' "$data"
    secret 2000; printf 'write 0 2 0 %s\nclose 0\ncreate 0 cut\n' "$data"
    secret 1008; printf 'write 0 0 0 %s\n' "$data"
    secret 4000; printf 'write 0 1 0 %s\n' "$data"
    secret 8192; printf 'write 0 2 0 %s\nclose 0\ncreate 0 files\n' "$data"
    secret 17008; printf 'write 0 0 0 %s\n' "$data"
    secret 17008; printf 'write 0 1 0 %s\nclose 0\n' "$data"
    secret 5008; printf 'create 0 sparse\nswrite 0 1024 %s\n' "$data"
    secret 9008; printf 'swrite 0 1048576 %s\nclose 0\n' "$data"
} >"$room/input"
makes "$room/sized"
secret 5008; longer=$data
secret 16400; much=$data
looks_for_drawn
base=$room/sized
stay=(cut files sparse)
kills 'growth from 256 to 4096, and from 256 and 1024 into files' \
    "open 0 grows\nwrite 0 0 112 $longer\nwrite 0 1 304 $much\nwrite 0 2 2000 $much\nclose 0\n" session
stay=(grows files sparse)
kills 'cuts within 256 and 1024, from 1024 to 256 and from 4096 to 1024' \
    "open 0 cut\ncut 0 0 592 -\ncut 0 1 2000 -\ncut 0 1 208 -\ncut 0 2 3008 -\nclose 0\n" session
stay=(grows cut sparse)
kills 'cuts from files to 1024 and 256' "open 0 files\ncut 0 0 3008 -\ncut 0 1 208 -\nclose 0\n" session
stay=(grows cut files)
kills 'doom of sparse data in blocks of 4096' '' doom sparse

# Streams from lengths that are drawn to others, by a cut, by a write behind the end, or written anew.
lengths=(16 240 256 272 512 784 1008 1024 2048 3088 4080 4096 8192 12304 16384 16400 24000)
drawn=0
RANDOM=$seed
changes=
input='open 0 changes\n'
{
    printf 'create 0 changes\n'
    for stream in 0 1 2; do
        from=${lengths[RANDOM % ${#lengths[@]}]} to=$from
        while [ "$to" = "$from" ]; do
            to=${lengths[RANDOM % ${#lengths[@]}]}
        done
        changes+=" $from:$to"
        secret "$from"
        printf 'write 0 %d 0 %s\n' "$stream" "$data"
        secret "$to"
        if [ $((RANDOM % 3)) = 0 ]; then
            changes+=' anew'
            input+="cut 0 $stream 0 $data\n"
        elif [ "$to" -lt "$from" ]; then
            input+="cut 0 $stream $to -\n"
        else
            input+="write 0 $stream $from ${data:0:(to - from) * 2}\n"
        fi
    done
    printf 'close 0\n'
    secret 1600
    printf 'create 0 stays\nwrite 0 0 0 %s\nclose 0\n' "$data"
} >"$room/input"
makes "$room/lengths"
looks_for_drawn
base=$room/lengths
stay=(stays)
kills "lengths that are drawn,$changes" "${input}close 0\n" session
echo "$places places of a kill were tried, and $killed_openings of the next openings${images:+, in $images folders}"
finish
