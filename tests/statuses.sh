# The statuses of the program, with what it prints, on folders that are whole and folders that fail.
. "$(dirname "${BASH_SOURCE[0]}")/common.sh"

# Runs count on a folder, and compares the status and all that is said.
answers() {
    count_in "$2"
    is "$1" "$3" "$status $said$complained"
}

for kind in $kinds; do
    make "$kind" "$room/$kind"
    answers "a folder that is $kind" "$room/$kind" "$(status_of "$kind") $(line_of "$kind")"
done
finished=$(held "$room/finished")
answers 'a finished folder once more' "$room/finished" "0 $empty_line"
is 'a finished folder has what it had' "$finished" "$(held "$room/finished")"
listed=$(held "$room/entries")
answers 'a folder with an entry once more' "$room/entries" '0 items 1 bytes 1'
is 'a folder with an entry has what it had' "$listed" "$(held "$room/entries")"
damaged=$(both "$room/damaged")
answers 'a damaged folder once more' "$room/damaged" "7 $(line_of damaged)"
is 'a damaged folder is not written to' "$damaged" "$(both "$room/damaged")"

# A session that was killed is opened again, and what isn't whole is dropped.
patch "$room/entries/index" 32 '\001'
answers 'a folder whose session was stopped' "$room/entries" '0 items 1 bytes 1'
is 'its session is closed' "$listed" "$(held "$room/entries")"
patch "$room/entries/data_1" 8192 '\0'
answers 'an entry that is not whole' "$room/entries" "0 $empty_line"
answers 'and once more' "$room/entries" "0 $empty_line"

# What a crash leaves is made anew.
make finished "$room/stopped"
patch "$room/stopped/index" 0 '\0\0\0\0'
answers 'a folder without its magic word' "$room/stopped" "0 $empty_line"
: >"$room/stopped/index"
answers 'an index without bytes' "$room/stopped" "0 $empty_line"

# Files with other names stay.
mkdir "$room/others"
printf kept >"$room/others/readme"
answers 'a folder with a file of another name' "$room/others" "0 $empty_line"
is 'that file stays' kept "$(cat "$room/others/readme")"

answers 'a folder that is not there' "$room/nowhere" '3 '
run "$room/nowhere" verify
is 'nor can it be verified' '3 ' "$status $said$complained"
run "$room/nowhere" verifies
is 'it goes before words outside the grammar' '3 ' "$status $said$complained"
printf x >"$room/file"
answers 'a file in place of the folder' "$room/file" '3 '
is 'that file stays as it is' x "$(cat "$room/file")"
answers 'a path without a byte' '' '3 '
answers 'a path that is too long' "$(printf '%05000d' 0)" '3 '

# As root every folder can be read and written, so the program is run as nobody there.
as_nobody=()
mkdir -m 711 "$room/bin"
cp "$program" "$room/bin/blkcache"
chmod 711 "$room"
chmod 755 "$room/bin/blkcache"
[ "$(id -u)" != 0 ] || as_nobody=(chroot --userspec=65534:65534 /)
make finished "$room/shut"
chmod 444 "$room/shut/"*
if [ "$("${as_nobody[@]}" cat "$room/bin/blkcache" 2>/dev/null | cksum)" != "$(cksum <"$program")" ]; then
    skip 'a folder that cannot be read or written' 'the program cannot be run as nobody here'
else
    for mode in 000 444 111; do
        chmod "$mode" "$room/shut"
        "${as_nobody[@]}" "$room/bin/blkcache" "$room/shut" count <"$room/input" >"$room/said" 2>&1
        is "a folder of mode $mode" '3 ' "$? $(cat "$room/said")"
    done
    chmod 755 "$room/shut"
    before=$(both "$room/shut")
    "${as_nobody[@]}" "$room/bin/blkcache" "$room/shut" count <"$room/input" >"$room/said" 2>&1
    is 'files that cannot be written' '3 ' "$? $(cat "$room/said")"
    is 'and they are as they were' "$before" "$(both "$room/shut")"
    # Words that only read need no leave to write, in the files or in the folder.
    for mode in 755 555; do
        chmod "$mode" "$room/shut"
        before=$(both "$room/shut")
        "${as_nobody[@]}" "$room/bin/blkcache" "$room/shut" verify <"$room/input" >"$room/said" 2>&1
        is "verify of files that cannot be written, in a folder of mode $mode" $'0 kept 0\nitems 0 bytes 0' "$? $(cat "$room/said")"
        "${as_nobody[@]}" "$room/bin/blkcache" "$room/shut" inspect list <"$room/input" >"$room/said" 2>&1
        is "inspect of files that cannot be written, in a folder of mode $mode" '0 end 0' "$? $(cat "$room/said")"
        is "they are left, in a folder of mode $mode" "$before" "$(both "$room/shut")"
    done
    chmod 755 "$room/shut"
    rm "$room/shut/"*
    chmod 555 "$room/shut"
    "${as_nobody[@]}" "$room/bin/blkcache" "$room/shut" count <"$room/input" >"$room/said" 2>&1
    is 'an empty folder that cannot be written' '3 ' "$? $(cat "$room/said")"
    is 'and it is empty' '' "$(picture "$room/shut")"
fi
chmod 755 "$room/shut"

# A file system that cannot be written.
mounted() {
    unshare --mount "$BASH" -c 'mount --bind "$1" "$2" && mount -o remount,ro,bind "$2" && exec "${@:3}"' -- "$room/read_only" "$room/mounted" "$@" 2>/dev/null
}
make entries "$room/read_only"
mkdir "$room/mounted"
if ! type -P unshare mount >/dev/null || ! mounted true; then
    skip 'a file system that cannot be written' 'unshare or mount is missing, or not allowed'
else
    before=$(both "$room/read_only")
    for words in 'verify:0 kept 1' 'inspect index:0 magic c103cac3' 'count:3 ' 'put b 0:3 '; do
        # shellcheck disable=SC2086
        said=$(mounted "$program" "$room/mounted" ${words%%:*} <"$room/input")
        is "a file system that cannot be written, ${words%%:*}" "${words#*:}" "$? ${said%%$'\n'*}"
    done
    is 'a file system that cannot be written: the folder' "$before" "$(both "$room/read_only")"
fi

# A file may get no longer than this: a write fails, and no signal ends the program.
mkdir "$room/full"
(ulimit -f 64 && trap '' XFSZ && exec timeout 60 "$program" "$room/full" count) >"$room/said" 2>&1
is 'no room for the files' '3 ' "$? $(cat "$room/said")"
answers 'and the next run makes the folder' "$room/full" "0 $empty_line"

# An output that fails, or that nobody reads, is a status, and no signal.
if [ -w /dev/full ]; then
    timeout 60 "$program" "$room/finished" count >/dev/full 2>"$room/complained"
    is 'an output that is full' '5 ' "$? $(cat "$room/complained")"
    # What replies after its work tries the output before it.
    make entries "$room/tried"
    mkdir "$room/untried"
    before=$(both "$room/tried" && both "$room/untried")
    for words in 'put b 0' 'put a 0' 'doom a' 'trim 0'; do
        for kind in tried untried; do
            # shellcheck disable=SC2086
            timeout 60 "$program" "$room/$kind" $words <"$room/input" >/dev/full 2>"$room/complained"
            is "$words to an output that is full, $kind" '5 ' "$? $(cat "$room/complained")"
            # shellcheck disable=SC2086
            timeout 60 "$program" "$room/$kind" $words <"$room/input" >&- 2>"$room/complained"
            is "$words to an output that is closed, $kind" '5 ' "$? $(cat "$room/complained")"
        done
    done
    is 'nothing is done then' "$before" "$(both "$room/tried" && both "$room/untried")"
    # The other words don't try it.
    make entries "$room/shown"
    for words in list 'get a 0' 'get b 0' 'inspect list' verify 'gen 1 3'; do
        # shellcheck disable=SC2086
        timeout 60 "$program" "$room/shown" $words <"$room/input" >/dev/full 2>"$room/complained"
        is "$words to an output that is full" '5 ' "$? $(cat "$room/complained")"
    done
    # A session flushes each reply, a refusal and a parse error too, so it ends with 5 at the first, and the lines after it are not done.
    # (main flushes once more, where a status 0 or 1 becomes 5; that this flush alone fails no test brings about, since nothing waits then.)
    make entries "$room/replied"
    for line in 'open 0 b' fly; do
        printf '%s\ncreate 1 c\nclose 1\n' "$line" >"$room/lines"
        timeout 60 "$program" "$room/replied" session <"$room/lines" >/dev/full 2>"$room/complained"
        is "a session that begins with '$line', to an output that is full" '5 ' "$? $(cat "$room/complained")"
    done
    run "$room/replied" list
    is 'the lines after it are not done' $'0 main a 0 0 0\nend 1' "$status $said"
else
    skip 'an output that is full' 'there is no /dev/full'
fi
# A socket whose other end is closed, and a terminal that is gone, are told by the same empty write.
if perl -MSocket -e 'socketpair(my $one, my $other, AF_UNIX, SOCK_STREAM, 0) or exit 1' 2>/dev/null; then
    make entries "$room/unsent"
    before=$(both "$room/unsent")
    for words in 'put b 0' 'put a 0' 'doom a' 'trim 0'; do
        # shellcheck disable=SC2086
        timeout 60 perl -MSocket -e 'socketpair(my $one, my $other, AF_UNIX, SOCK_STREAM, 0); close $other; open(STDOUT, ">&", $one); exec @ARGV' \
            "$program" "$room/unsent" $words <"$room/input" >/dev/null 2>"$room/complained"
        is "$words to a socket whose other end is closed" '5 ' "$? $(cat "$room/complained")"
    done
    is 'nothing is done then, to a socket' "$before" "$(both "$room/unsent")"
else
    skip 'an output that is a socket' 'perl is missing'
fi
if perl -MFcntl -e 'sysopen(my $it, "/dev/ptmx", O_RDWR | O_NOCTTY) or exit 1; ioctl($it, 0x40045431, my $no = pack("i", 0)) or exit 1; ioctl($it, 0x80045430, $no) or exit 1; sysopen(my $end, "/dev/pts/" . unpack("i", $no), O_RDWR | O_NOCTTY) or exit 1' 2>/dev/null; then
    make entries "$room/hung"
    before=$(both "$room/hung")
    for words in 'put b 0' 'put a 0' 'doom a' 'trim 0'; do
        # shellcheck disable=SC2086
        timeout 60 perl -MFcntl -e 'sysopen(my $it, "/dev/ptmx", O_RDWR | O_NOCTTY); ioctl($it, 0x40045431, my $no = pack("i", 0)); ioctl($it, 0x80045430, $no); sysopen(my $end, "/dev/pts/" . unpack("i", $no), O_RDWR | O_NOCTTY); open(STDOUT, ">&", $end); close $it; exec @ARGV' \
            "$program" "$room/hung" $words <"$room/input" >/dev/null 2>"$room/complained"
        is "$words to a terminal that is gone" '5 ' "$? $(cat "$room/complained")"
    done
    is 'nothing is done then, to a terminal' "$before" "$(both "$room/hung")"
else
    skip 'an output that is a terminal' 'perl is missing, or no terminal can be made'
fi
mkfifo "$room/pipe"
# Both ends are opened, and the reader's is closed before the program writes.
exec 8<>"$room/pipe" 9>"$room/pipe" 8<&-
timeout 60 "$program" "$room/finished" count >&9 2>"$room/complained"
is 'an output that nobody reads' '5 ' "$? $(cat "$room/complained")"
# An empty write does not tell of it, so what replies after its work has done it, and put has made its entry.
printf x >"$room/one"
for words in 'put b 0' 'doom a' 'trim 0'; do
    rm -rf "$room/unread"
    make entries "$room/unread"
    # shellcheck disable=SC2086
    timeout 60 "$program" "$room/unread" $words <"$room/one" >&9 2>"$room/complained"
    is "$words to an output that nobody reads" '5 ' "$? $(cat "$room/complained")"
    run "$room/unread" list
    [ "$words" = 'put b 0' ] && wanted=$'0 main b 0 0 0\nmain a 0 0 0\nend 2' || wanted='0 end 0'
    is "$words to an output that nobody reads: what is done" "$wanted" "$status $said"
done
exec 9>&-
timeout 60 "$program" "$room/finished" count <"$room/finished" >"$room/said" 2>&1
is 'an input that cannot be read is not asked' "0 $empty_line" "$? $(cat "$room/said")"
is 'after all this the folder has what it had' "$finished" "$(held "$room/finished")"
finish
