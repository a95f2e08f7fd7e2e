# A session of 400 entries by eight handles, of which the last Close meets a folder that can't be written any more: what was clean is
# there, whole, and the last entry is gone.
. "$(dirname "${BASH_SOURCE[0]}")/common.sh"

entries=400
folder=$room/folder
mkdir "$folder"

# The digits of all streams: those of an entry begin one byte after those of the one before.
digits=$(seq -w 0 99999 | tr -d '\n')
key_of() {
    printf -v key 'https://example.test/r/%03d' "$1"
}
size_of() {
    size=$((20000 + 450 * $1))
}

# The lines but for the last Close: each entry closes the one eight before it.
make_lines() {
    local number handle
    for ((number = 0; number < entries; number++)); do
        handle=$((number % 8))
        key_of "$number"
        size_of "$number"
        [ "$number" -lt 8 ] || echo "close $handle"
        echo "create $handle $key"
        echo "write $handle 0 0 ${digits:2 * number:600}"
        echo "write $handle 1 0 ${digits:2 * number:2 * size}"
    done
    for ((number = entries - 8; number < entries - 1; number++)); do
        echo "close $((number % 8))"
    done
    echo total
}

# The lines that read what is left, and what they print.
make_looks() {
    local number
    echo list
    for ((number = 0; number < entries - 1; number++)); do
        key_of "$number"
        printf 'open 0 %s\nread 0 0 0 300\nread 0 1 0 200000\nclose 0\n' "$key"
    done
}
make_wanted() {
    local number
    for ((number = entries - 2; number >= 0; number--)); do
        key_of "$number"
        size_of "$number"
        echo "main $key 300 $size 0"
    done
    echo "end $((entries - 1))"
    for ((number = 0; number < entries - 1; number++)); do
        size_of "$number"
        printf 'ok\ndata 300 %s\ndata %s %s\nok\n' "${digits:2 * number:600}" "$size" "${digits:2 * number:2 * size}"
    done
}

# Waits until the session has answered so many lines.
wait_for_replies() {
    for _ in $(seq 1200); do
        [ "$(wc -l <"$room/replies")" -lt "$1" ] || return 0
        sleep 0.1
    done
}

if ! command -v prlimit >/dev/null; then
    skip 'a session of 400 entries' 'prlimit is missing'
    finish
fi
make_lines >"$room/lines"
count=$(wc -l <"$room/lines")
mkfifo "$room/given"
(trap '' XFSZ && exec "$program" "$folder" session <"$room/given" 2>"$room/complained") > >(cat >"$room/replies") &
session=$!
exec 9>"$room/given"
cat "$room/lines" >&9
wait_for_replies "$count"
is 'all lines but the last are answered' "$count total 400 44040400" "$(wc -l <"$room/replies") $(tail -n 1 "$room/replies")"
is 'each was done' 0 "$(count_unlike '@(ok|ok +([0-9])|total +([0-9]) +([0-9]))' <"$room/replies")"

# From here on no byte can be written into a file.
prlimit --pid "$session" --fsize=0
echo 'close 7' >&9
exec 9>&-
wait "$session"
status=$?
sleep 0.2
is 'the last Close meets a folder that failed' "3 $count" "$status $(wc -l <"$room/replies")"

run "$folder" count
is 'the others are counted' '0 items 399 bytes 43840524' "$status $said"
make_looks >"$room/looks"
make_wanted >"$room/wanted"
timeout 600 "$program" "$folder" session <"$room/looks" >"$room/read" 2>&1
is 'the others are listed in their order, and read with all their bytes' '0 same' "$? $(are_same "$room/wanted" "$room/read" && echo same)"
run "$folder" verify
is 'and nothing would be dropped' '0 kept 399' "$status $(head -n 1 <<<"$said")"
finish
