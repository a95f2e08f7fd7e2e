# A folder of 20,000 entries, made by one session. What the next count takes is told, beside what cat takes over the same files, both
# from memory.
. "$(dirname "${BASH_SOURCE[0]}")/common.sh"

count=20000
folder=$room/large
mkdir "$folder"
data=$(printf '7a%.0s' $(seq 100))
for ((number = 0; number < count; number++)); do
    printf 'create 0 https://example.test/r/%05d\nwrite 0 0 0 %s\nclose 0\n' "$number" "$data"
done >"$room/lines"

seconds() {
    local from=$EPOCHREALTIME to
    "$@"
    to=$EPOCHREALTIME
    took=$(((${to/./} - ${from/./}) / 1000))
}
make_them() {
    timeout 1200 "$program" "$folder" session <"$room/lines" >"$room/replies" 2>"$room/complained"
    status=$?
}
count_them() {
    timeout 600 "$program" "$folder" count >"$room/said" 2>&1
    status=$?
}
cat_them() {
    cat "$folder"/* >/dev/null
}
seconds make_them
is 'the session' "0 $((3 * count)) 0" "$status $(wc -l <"$room/replies") $(count_unlike 'ok*' <"$room/replies")"
echo "a session of $((3 * count)) commands: $took ms"
seconds count_them
is 'the next count' "0 items $count bytes $((count * (28 + 100)))" "$status $(cat "$room/said")"
echo "count of $count entries: $took ms"
seconds cat_them
echo "cat of the same files: $took ms"
run "$folder" get https://example.test/r/00000 0
is 'the first entry' "0 ok"$'\n'"data 100 $data"$'\n'ok "$status $said"
finish
