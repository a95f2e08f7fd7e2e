# Whichever standard streams are closed at the start, no file of the folder takes their descriptors.
. "$(dirname "${BASH_SOURCE[0]}")/common.sh"

# Runs count on a folder with these descriptors closed from the start.
count_closed() {
    timeout 60 "$BASH" -c 'for it in $3; do eval "exec $it>&-"; done; exec "$1" "$2" count' \
        -- "$program" "$1" "$2" <"$room/input" >"$room/said" 2>"$room/complained"
    status=$?
    said=$(cat "$room/said")
    complained=$(cat "$room/complained")
}

# All that a folder has, but for the moment of its making.
untimed() {
    picture_with "$1" 40 '\0\0\0\0\0\0\0\0'
}

new=$(untimed "$room/made")
for closed in '' '0' '1' '2' '0 1' '0 2' '1 2' '0 1 2'; do
    for kind in $kinds; do
        what="with [$closed] closed, on a folder that is $kind"
        folder=$room/$kind
        make "$kind" "$folder"
        before=$(held "$folder")
        count_closed "$folder" "$closed"
        wanted=$(status_of "$kind")
        line=$(line_of "$kind")
        # A reply that can't be printed is a failure of the output; what is wrong with the folder comes before it.
        if [[ $closed == *1* ]]; then
            line=
            [ "$wanted" != 0 ] || wanted=5
        fi
        is "the status $what" "$wanted" "$status"
        is "the output $what" "$line" "$said"
        is "the errors $what" '' "$complained"
        if [ "$kind" = empty ]; then
            is "the new folder $what" "$new" "$(untimed "$folder")"
            count_in "$folder"
            is "the next run $what" "0 $empty_line" "$status $said"
        else
            is "the folder $what" "$before" "$(held "$folder")"
        fi
        rm -r "$folder"
    done
done

# Open streams are left alone: a second process that shares them goes on to use them.
mkdir "$room/shared"
said=$({ "$program" "$room/shared" count && echo after; } 2>&1)
is 'an open output is used on' "$empty_line"$'\n'after "$said"

# Without /dev/null a closed stream can't be filled: then nothing is touched. Where all are open it isn't needed.
# A folder with the program's libraries alone is made, which the program sees as the whole machine.
machine=$room/machine
loader=/lib64/ld-linux-x86-64.so.2
mkdir -p "$machine/cache" "$machine/empty" "$machine/lib64"
cp "$program" "$machine/blkcache"
if [ -x "$loader" ]; then
    cp "$loader" "$machine/lib64"
    for it in $("$loader" --list "$program"); do
        case $it in /*) mkdir -p "$machine${it%/*}" && cp "$it" "$machine$it" ;; esac
    done
fi
chroot "$machine" /blkcache /cache count <"$room/input" >"$room/said" 2>"$room/complained"
status=$?
if [ "$status" -ge 125 ]; then
    skip 'a stream that cannot be filled' "no program without a /dev/null can be run here: $(head -n 1 "$room/complained")"
else
    is 'open streams need no /dev/null' "0 $empty_line" "$status $(cat "$room/said" "$room/complained")"
    for folder in cache empty; do
        before=$(both "$machine/$folder")
        for closed in '0' '1' '2' '0 1 2'; do
            "$BASH" -c 'for it in $3; do eval "exec $it>&-"; done; exec chroot "$1" /blkcache "/$2" count' \
                -- "$machine" "$folder" "$closed" <"$room/input" >"$room/said" 2>"$room/complained"
            is "with [$closed] closed and not filled ($folder)" '3 ' "$? $(cat "$room/said" "$room/complained")"
            is "with [$closed] closed and not filled, the folder ($folder)" "$before" "$(both "$machine/$folder")"
        done
    done
fi
finish
