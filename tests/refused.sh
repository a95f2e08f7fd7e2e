# One piece of memory after another is refused, each in a run of its own: the first that the program asks for, the second, and so on up to
# where it asks for no more. Each run ends with 6, prints nothing and leaves the folder as it was, or does what it always does.
. "$(dirname "${BASH_SOURCE[0]}")/common.sh"

if ! command -v cc >/dev/null || ! cc -shared -fPIC -o "$room/refused.so" "$top/tests/refused.c" -ldl 2>/dev/null; then
    skip 'pieces of memory that are refused' 'cc is missing'
    finish
fi

# Runs the program with arguments, the piece of a number refused.
run_refused() {
    REFUSED=$1 LD_PRELOAD=$room/refused.so timeout 60 "$program" "${@:2}" <"$room/input" >"$room/said" 2>"$room/complained"
    status=$?
    said=$(cat "$room/said")
}

# What a folder holds, by checksums.
sums() (
    cd "$1" && cksum -- * 2>/dev/null
)

# Arguments on a folder of a kind: each number is tried, until some in a row change nothing. A piece that is refused inside the objects that
# are the machine is a fault of the folder, told by 3: then a prefix was printed, and the folder is opened again.
most=2000
refuses() {
    local kind=$1 wanted=$2 before number last=0
    make "$kind" "$room/tried"
    before=$(sums "$room/tried")
    for ((number = 1; number <= last + 20 && number <= most; number++)); do
        run_refused "$number" "$room/tried" "${@:3}"
        case $status in
            6)
                last=$number
                is "$kind, ${*:3}: piece $number is refused, and nothing is done" "$before" "$said$(sums "$room/tried")"
                continue
                ;;
            3)
                last=$number
                is "$kind, ${*:3}: piece $number is refused, and a front is printed" "${wanted:2}" "$said${wanted:2+${#said}}"
                count_in "$room/tried"
                is "$kind, ${*:3}: piece $number is refused, and the folder is opened again" "$(status_of "$kind")" "$status"
                ;;
            *) is "$kind, ${*:3}: with piece $number refused it is done" "$wanted" "$status $said" ;;
        esac
        rm -rf "$room/tried"
        make "$kind" "$room/tried"
        before=$(sums "$room/tried")
    done
    is "$kind, ${*:3}: some piece is refused" yes "$([ "$last" -gt 0 ] && [ "$last" -lt "$most" ] && echo yes)"
    rm -rf "$room/tried"
}
for kind in empty finished entries; do
    : >"$room/input"
    refuses "$kind" "0 $(line_of "$kind")" count
    printf 'create 0 new\nwrite 0 0 0 616263\nswrite 1 0 61\nlist\nclose 0\n' >"$room/input"
    refuses "$kind" "1 ok"$'\n'"ok 3"$'\n'"refused 1 BadHandle"$'\n'"main new 3 0 0"$'\n'"$([ "$kind" = entries ] && echo "main a 0 0 0"$'\n'"end 2" || echo 'end 1')"$'\n'"ok" session
done
printf abc >"$room/input"
refuses entries $'0 ok\nok 3\nok' put new 0
: >"$room/input"
refuses entries $'0 main a 0 0 0\nend 1' list
refuses entries $'0 ok\ndata 0 -\nok' get a 0
refuses entries '0 ok' doom a
refuses entries $'0 kept 1\nitems 1 bytes 1' verify
refuses empty $'0 commands 5 refused 1 evicted 0 read 16945\nitems 1 bytes 16949' gen 0 1
refuses damaged "7 $(line_of damaged)" count
finish
