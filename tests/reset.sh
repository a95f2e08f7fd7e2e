# ./blkcache FOLDER reset removes the cache files of a folder and nothing else, and not where another process has the folder.
. "$(dirname "${BASH_SOURCE[0]}")/common.sh"

# Runs the script at the top, which needs no program for this subcommand.
reset() {
    "$BASH" "$top/blkcache" "$@" <"$room/input" >"$room/said" 2>"$room/complained"
    status=$?
    said=$(cat "$room/said")
    complained=$(cat "$room/complained")
}
folder=$room/folder
# Makes a folder with cache files and others whose names are close to theirs.
ours='data_0 data_255 data_9 f_000001 f_00000a f_1000000 f_fffffff index'
others='.index F_000001 data_ data_00 data_256 data_9x f_ f_00000 f_000000 f_00000A f_00000g f_0000001 f_10000000 index.old xindex'
fill() {
    rm -rf "$folder"
    mkdir "$folder"
    (cd "$folder" && touch $ours $others && mkdir below && touch below/index && ln -s ../out data_x)
}
names() (
    shopt -s dotglob
    cd "$folder" && echo *
)

if ! type -P flock >/dev/null; then
    fill
    before=$(names)
    reset "$folder" reset --yes
    is 'without flock one line says so' '3 blkcache: reset needs flock, of util-linux, to see that no other process has the folder' "$status $said$complained"
    is 'and nothing is removed' "$before" "$(names)"
    skip 'what reset removes' 'flock is missing'
    finish
fi

fill
left=$(cd "$folder" && rm $ours && names)
for words in 'reset --yes' '--yes reset' '--wait reset'; do
    fill
    if [ "$words" = '--wait reset' ]; then
        reset --wait 3 "$folder" reset --yes
    else
        # shellcheck disable=SC2086
        reset "$folder" $words
    fi
    is "$words" '0 removed 8' "$status $said$complained"
    is "$words: what is left" "$left" "$(names)"
done
reset "$folder" reset --yes
is 'once more' '0 removed 0' "$status $said$complained"

# It is refused, and nothing is removed.
refused() {
    local before
    before=$(names)
    reset "${@:4}"
    is "$1" "$2 $3" "$status $said$complained"
    is "$1: nothing is removed" "$before" "$(names)"
}
fill
refused 'without a terminal' 2 'blkcache: without a terminal, use reset --yes' "$folder" reset
for words in 'reset --no' 'reset --yes --yes' 'reset index'; do
    # shellcheck disable=SC2086
    refused "the words $words" 2 usage "$folder" $words
done
for words in '--wait x' '--wait -1' '--wait 01' '--wait 1.5'; do
    # shellcheck disable=SC2086
    refused "$words" 2 usage $words "$folder" reset --yes
done
refused '--wait without words' 2 usage --wait 3 "$folder"
refused 'a folder that is not there' 3 "blkcache: no such folder: $room/nowhere" "$room/nowhere" reset --yes
for what in 'ln -s below/index' mkdir mkfifo; do
    for name in index data_3 f_000002; do
        fill
        rm -f "$folder/$name"
        (cd "$folder" && $what "$name")
        refused "$name made by $what" 3 "blkcache: $name is no regular file: nothing is removed" "$folder" reset --yes
    done
done
fill
exec 8<"$folder"
flock --exclusive 8
refused 'a lock of another program' 3 'blkcache: another process has the folder' "$folder" reset --yes
from=${EPOCHREALTIME/./}
refused 'a lock that is waited for' 3 'blkcache: another process has the folder' --wait 1 "$folder" reset --yes
took=$((${EPOCHREALTIME/./} - from))
is 'a lock that is waited for: a second' yes "$([ "$took" -ge 1000000 ] && echo yes || echo "$took")"
flock --unlock 8
flock --shared 8
refused 'a shared lock of another program' 3 'blkcache: another process has the folder' "$folder" reset --yes
(sleep 0.5 && flock --unlock 8) &
reset --wait 50 "$folder" reset --yes
is 'a lock that is given back' '0 removed 8' "$status $said$complained"
wait
exec 8<&-

# How long it waits has at most nine digits, also where the environment says it.
for it in 1000000000 x 01; do
    BLKCACHE_WAIT=$it refused "BLKCACHE_WAIT=$it" 2 usage "$folder" reset --yes
done
fill
BLKCACHE_WAIT=999999999 reset "$folder" reset --yes
is 'BLKCACHE_WAIT=999999999' '0 removed 8' "$status $said$complained"

# What the system answers, by strace: a file system without locks, and a removal that is killed.
answered() {
    strace -f -o "$room/calls" -e trace="$1" -e inject="$1:$2" "$BASH" "$top/blkcache" "$folder" reset --yes <"$room/input" >"$room/said" 2>"$room/complained"
    status=$?
    said=$(cat "$room/said")
    complained=$(cat "$room/complained")
}
if ! command -v strace >/dev/null || ! strace -f -o /dev/null -e trace=flock -e inject=flock:error=ENOLCK true 2>/dev/null; then
    skip 'reset where the folder has no locks, and reset that is killed' 'strace is missing, or may not do so'
else
    fill
    before=$(names)
    for it in ENOSYS EOPNOTSUPP ENOLCK EIO EACCES; do
        answered flock "error=$it"
        is "no lock ($it)" '3 blkcache: the folder cannot be locked' "$status $said$complained"
        is "no lock ($it): nothing is removed" "$before" "$(names)"
    done
    # The index goes first, so whatever a kill leaves is a folder in which a new cache is made.
    rm -rf "$room/filled"
    mkdir "$room/filled"
    printf 'a%.0s' {1..20000} >"$room/input"
    run "$room/filled" put page 0
    : >"$room/input"
    is 'an entry is put' 0 "$status"
    for it in 0 1; do
        export BLKCACHE_ERASE=$it
        for number in 1 2 4 6; do
            rm -rf "$folder"
            cp -a "$room/filled" "$folder"
            answered unlinkat "signal=KILL:when=$number"
            is "killed at removal $number, erasing $it" '3 blkcache: the cache files cannot be removed, or not all' "$status $said${complained##*$'\n'}"
            is "killed at removal $number, erasing $it: how many of the six files are left" $((7 - number)) "$(ls "$folder" | wc -l)"
            count_in "$folder"
            is "killed at removal $number, erasing $it: what the next command counts" "0 $([ "$number" = 1 ] && [ "$it" = 0 ] && echo 'items 1 bytes 20004' || echo "$empty_line")" "$status $said"
        done
    done
    unset BLKCACHE_ERASE
fi

# What the user may not do.
as_nobody=()
[ "$(id -u)" != 0 ] || as_nobody=(chroot --userspec=65534:65534 /)
mkdir "$room/bin"
cp "$top/blkcache" "$room/bin"
chmod 711 "$room"
chmod -R a+rX "$room/bin"
if [ "$("${as_nobody[@]}" cat "$room/bin/blkcache" 2>/dev/null | cksum)" != "$(cksum <"$top/blkcache")" ]; then
    skip 'reset of a folder that its user may not change' 'it cannot be run as nobody here'
else
    fill
    before=$(names)
    # The folder may not be entered; may not be read, so that it has no lock; may not be written.
    while IFS=: read -r mode wanted; do
        chmod "$mode" "$folder"
        "${as_nobody[@]}" "$BASH" "$room/bin/blkcache" "$folder" reset --yes <"$room/input" >"$room/said" 2>"$room/complained"
        status=$?
        chmod 755 "$folder"
        is "a folder of mode $mode" "3 blkcache: $wanted" "$status $(cat "$room/said" "$room/complained")"
        is "a folder of mode $mode: nothing is removed" "$before" "$(names)"
    done <<END
600:the folder cannot be entered: $folder
311:the folder cannot be locked
555:the cache files cannot be removed, or not all
END
fi

# An open session keeps its folder.
rm -rf "$folder"
mkdir "$folder"
coproc talk { exec "$program" "$folder" session 2>"$room/talked"; }
talk_in=${talk[1]} talk_out=${talk[0]} talk_id=$talk_PID
echo 'create 0 page' >&"$talk_in"
read -r -t 20 reply <&"$talk_out"
refused 'an open session' 3 'blkcache: another process has the folder' "$folder" reset --yes
eval "exec $talk_in>&-"
wait "$talk_id"
is 'which ends' 0 $?

# With erasing on, what still has a file finds zeros, as long as it was; a file with a second name is not written.
fill
printf '%5000s' x >"$folder/data_9"
exec 9<"$folder/data_9"
BLKCACHE_ERASE=1 reset "$folder" reset --yes
is 'erased' '0 removed 8' "$status $said$complained"
is 'to zeros' "$(head -c 5000 /dev/zero | cksum)" "$(cksum <&9)"
exec 9<&-
is 'erased: what is left' "$left" "$(names)"
fill
echo secret >"$room/kept"
ln -f "$room/kept" "$folder/data_255"
export BLKCACHE_ERASE=1
refused 'a second name' 3 'blkcache: data_255 is no regular file with one name: nothing more is erased or removed' "$folder" reset --yes
is 'which is not written' secret "$(cat "$room/kept")"
for value in 2 yes 01 ' '; do
    export BLKCACHE_ERASE=$value
    refused "BLKCACHE_ERASE=$value" 2 usage "$folder" reset --yes
done
export BLKCACHE_ERASE=0
reset "$folder" reset --yes
is 'told not to erase' '0 removed 8 secret' "$status $said$complained $(cat "$room/kept")"
unset BLKCACHE_ERASE

# It is the way out of a corruption, and a folder with more files than one call of rm gets is emptied.
make damaged "$room/damaged"
count_in "$room/damaged"
is 'a damaged folder' "7 $(line_of damaged)" "$status $said"
for number in {1..2500}; do
    printf -v name 'f_%06x' "$number"
    : >"$room/damaged/$name"
done
reset "$room/damaged" reset --yes
is 'it is emptied' '0 removed 2505' "$status $said$complained"
count_in "$room/damaged"
is 'and a new cache is made' "0 $empty_line" "$status $said"

# On a terminal it asks.
if ! type -P script >/dev/null || ! script --version >/dev/null 2>&1; then
    skip 'the question on a terminal' 'script, of util-linux, is missing'
    finish
fi
fill
{
    sleep 1
    ln -sf "$room/kept" "$folder/data_9"
    echo y
} | BLKCACHE_ERASE=1 timeout 20 script --quiet --return --command "'$BASH' '$top/blkcache' '$folder' reset" /dev/null >"$room/said" 2>&1
is 'a link that comes while it is asked' '3 secret' "$? $(cat "$room/kept")"
for answer in y yes Y n '' x; do
    fill
    printf '%s\n' "$answer" >"$room/answer"
    timeout 20 script --quiet --return --command "'$BASH' '$top/blkcache' '$folder' reset" /dev/null <"$room/answer" >"$room/said" 2>&1
    status=$?
    case $answer in
        [yY]*) is "the answer [$answer]" "0 $left" "$status $(names)" ;;
        *) is "the answer [$answer]" "1 yes" "$status $([ -e "$folder/index" ] && echo yes)" ;;
    esac
done
finish
