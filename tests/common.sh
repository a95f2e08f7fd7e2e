# What the scripts share. Each is run by tests/run with the program's path, and ends with a call of finish.
set -u
[ $# != 0 ] || {
    echo "usage: tests/${0##*/} PROGRAM" >&2
    exit 2
}
export LC_ALL=C
top=$(cd "$(dirname "${BASH_SOURCE[0]}")/.." && pwd)
case $1 in /*) program=$1 ;; *) program=$PWD/$1 ;; esac
room=$(mktemp -d)
trap 'rm -rf "$room"' EXIT
passed=0
failed=0
empty_line='items 0 bytes 0'

# Counts a test: NAME is what it shows, and WANTED and GOT have to be the same text.
is() {
    if [ "$2" = "$3" ]; then
        passed=$((passed + 1))
    else
        failed=$((failed + 1))
        printf 'FAILED %s: wanted [%.300s], got [%.300s]\n' "$1" "$2" "$3"
    fi
}

# Says that a test can't be made on this machine.
skip() {
    printf 'skipped %s: %s\n' "$1" "$2"
}

# Counts the lines of the input that match one of bash's patterns: count_like PATTERN. With count_unlike those that do not.
count_like() {
    local line number=0
    while IFS= read -r line || [ -n "$line" ]; do
        # shellcheck disable=SC2053
        [[ $line != $1 ]] || number=$((number + 1))
    done
    echo "$number"
}
count_unlike() {
    local line number=0
    while IFS= read -r line || [ -n "$line" ]; do
        # shellcheck disable=SC2053
        [[ $line == $1 ]] || number=$((number + 1))
    done
    echo "$number"
}

# Whether two files have the same bytes.
are_same() {
    [ "$(sha256sum <"$1")" = "$(sha256sum <"$2")" ]
}

# Prints the counts; the status is 1 where something failed. Nothing that was started may be left to run on.
finish() {
    echo "$passed passed, $failed failed"
    exit $((failed > 0))
}

# Prints all that a folder has: each name, hidden ones too, with its kind, and each file's bytes.
picture() (
    cd "$1" || exit
    shopt -s nullglob dotglob
    for name in *; do
        if [ -L "$name" ]; then
            printf '%s is a link to %s\n' "$name" "$(readlink "$name")"
        elif [ -f "$name" ]; then
            printf '%s has ' "$name"
            base64 -w0 <"$name"
            echo
        elif [ -d "$name" ]; then
            printf '%s is a directory: ' "$name"
            picture "$name"
        else
            stat -c '%n is a %F' "$name"
        fi
    done
)

# Prints when the folder and each of its files was last written, to the nanosecond.
times() {
    stat -c '%n %y' "$1" "$1"/* 2>/dev/null
}

# The same folder is the same in what it has, and nothing was written to it.
both() {
    picture "$1"
    times "$1"
}

# Runs the program with arguments. Leaves its status, and what it printed and complained.
count_in() {
    run "$1" count
}
run() {
    timeout 60 "$program" "$@" <"$room/input" >"$room/said" 2>"$room/complained"
    status=$?
    said=$(cat "$room/said")
    complained=$(cat "$room/complained")
}
: >"$room/input"

# Writes bytes, given as printf's escapes, over those of a file at a place.
patch() {
    printf "$3" | dd of="$1" bs=1 seek="$2" conv=notrunc status=none
}

# Prints words of a folder's index: words_of FOLDER PLACE ..
words_of() {
    local place words=
    for place in "${@:2}"; do
        words+=$(od -An -tx4 -j "$place" -N 4 "$1/index")
    done
    echo "${words# }"
}

# Puts a folder's index back to the first version: put_back FOLDER WORD [WORDS], where WORD is the one at 12 and WORDS are those from 48 on,
# each as printf's escapes.
put_back() {
    patch "$1/index" 4 '\0\0\002\0'
    patch "$1/index" 12 "$2"
    [ $# -lt 3 ] || patch "$1/index" 48 "$3"
}

# Prints all that a folder has, with these bytes from a place of its index on.
picture_with() {
    local copy=$room/pictured
    rm -rf "$copy"
    cp -a "$1" "$copy"
    [ ! -f "$copy/index" ] || patch "$copy/index" "$2" "$3"
    picture "$copy"
}

# Prints all that a folder has, but for the number of the session, which each run that opens it raises.
held() {
    picture_with "$1" 20 '\0\0\0\0'
}

# Makes a folder of a kind: empty, finished (made, and without entries), damaged (corrupt: its version is wrong), or entries (it has one).
make() {
    mkdir "$2"
    case $1 in
        finished | damaged) cp "$room/made/"* "$2" ;;
        entries) cp "$room/listed/"* "$2" ;;
    esac
    [ "$1" != damaged ] || patch "$2/index" 4 '\003'
}
kinds='empty finished damaged entries'

# Writes an entry with the key a and no streams into a folder without entries: its node is the only one of the list, and its
# record that of its bucket.
write_entry() {
    local node='\0\0\0\220' record='\0\0\001\240'
    for it in data_0 data_1; do
        patch "$1/$it" 20 '\0\004\0\0'
        truncate -s 9216 "$1/$it"
    done
    patch "$1/data_0" 8208 "$node$node$record"
    patch "$1/data_1" 8192 '\202\247\136\021'
    patch "$1/data_1" 8200 "$node"
    patch "$1/data_1" 8224 '\001\0\0\0'
    patch "$1/data_1" 8288 a
    patch "$1/index" 288 "$node"
    patch "$1/index" 308 "$node"
    patch "$1/index" 171896 "$record"
}

# What count answers on a folder of a kind.
status_of() {
    case $1 in damaged) echo 7 ;; *) echo 0 ;; esac
}
line_of() {
    case $1 in
        empty | finished) echo "$empty_line" ;;
        damaged) echo 'damaged index 4 00030003' ;;
        entries) echo 'items 1 bytes 1' ;;
    esac
}

# Prints a script of so many commands that are drawn from a seed: draw_script SEED COUNT. Keys and handles are few, so that most lines
# meet what lines before them left. It needs awk.
draw_script() {
    awk -v seed="$1" -v count="$2" '
        function below(n) { return int(rand() * n) }
        function data(   n, text, all) {
            n = rand()
            n = n < 0.6 ? 1 + below(40) : n < 0.85 ? below(1500) : n < 0.95 ? 4000 + below(5000) : 16000 + below(9000)
            if (n == 0) return "-"
            text = sprintf("%02x", below(256))
            for (all = text; length(all) < 2 * n; all = all all);
            return substr(all, 1, 2 * n)
        }
        function key() { return "key/" below(12) }
        function handle() { return below(6) }
        function place() { return below(4) ? 1048576 * below(3) + below(3000) : 1048576 * (1 + below(2)) - below(1500) }
        BEGIN {
            srand(seed)
            for (; count > 0; count--) {
                n = rand()
                if (n < 0.16) print "create", handle(), key()
                else if (n < 0.32) print "open", handle(), key()
                else if (n < 0.48) print "write", handle(), below(3), below(3) ? 0 : below(2000), data()
                else if (n < 0.54) print "cut", handle(), below(3), below(2) ? 0 : below(300), data()
                else if (n < 0.66) print "swrite", handle(), place(), data()
                else if (n < 0.69) print "sread", handle(), place(), 1 + below(5000)
                else if (n < 0.72) print "srange", handle(), place(), 1048576
                else if (n < 0.76) print "read", handle(), below(3), below(100), 1 + below(3000)
                else if (n < 0.91) print "close", handle()
                else if (n < 0.94) print "flush", handle()
                else if (n < 0.96) print "doomkey", key()
                else if (n < 0.97) print "doom", handle()
                else if (n < 0.98) print "trim", below(200000)
                else print below(2) ? "list" : "total"
            }
        }' </dev/null
}

# A finished folder and one with an entry, of which the others are copies. The first count of an entry completes its maps,
# counters and hashes.
mkdir "$room/made"
count_in "$room/made"
is 'a folder is made' "0 $empty_line" "$status $said$complained"
cp -r "$room/made" "$room/listed"
write_entry "$room/listed"
count_in "$room/listed"
is 'an entry is counted' '0 items 1 bytes 1' "$status $said$complained"
