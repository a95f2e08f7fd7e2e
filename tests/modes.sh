# Files are made for their owner alone, whatever the umask; files that are there keep their modes.
. "$(dirname "${BASH_SOURCE[0]}")/common.sh"

# Writes a stream that has a file of its own.
put_long() {
    head -c 20000 /dev/zero >"$room/input"
    run "$@"
    : >"$room/input"
}
for mask in 000 022 077 777; do
    folder=$room/under-$mask
    mkdir "$folder"
    before=$(umask)
    umask "$mask"
    put_long "$folder" put page 0
    umask "$before"
    is "under umask $mask: it is put" $'0 ok\nok 20000\nok' "$status $said"
    is "under umask $mask: the files" 'index 600 data_0 600 data_1 600 data_2 600 data_3 600 f_000001 600' \
        "$(cd "$folder" && echo $(stat -c '%n %a' index data_? f_*))"
done

folder=$room/under-022
chmod 640 "$folder"/*
put_long "$folder" put other 0
is 'another is put' $'0 ok\nok 20000\nok' "$status $said"
is 'files that are there keep their modes' 'index 640 data_0 640 data_1 640 data_2 640 data_3 640 f_000001 640 f_000002 600' \
    "$(cd "$folder" && echo $(stat -c '%n %a' index data_? f_*))"

# Under a umask that takes its owner's rights, a file has no mode between its making and the call that puts that right. By the script, which
# sets the umask, there is no such moment: whoever owns the folder opens it after a kill at any place. (As root one sees nothing of it.)
if ! command -v cc >/dev/null || ! cc -shared -fPIC -o "$room/stopped.so" "$top/tests/stopped.c" -ldl 2>/dev/null; then
    skip 'modes after a kill' 'cc is missing'
    finish
fi
mkdir -p "$room/repository/crates/blkcache/out"
cp "$top/blkcache" "$room/repository"
cp "$program" "$room/program"
# The program, which is killed at a place where one is given.
cat >"$room/repository/crates/blkcache/out/blkcache" <<END
#!$BASH
[ -z "\${PLACE-}" ] || export STOPPED=\$PLACE LD_PRELOAD=$room/stopped.so
exec '$room/program' "\$@"
END
as_nobody=()
[ "$(id -u)" != 0 ] || as_nobody=(chroot --userspec=65534:65534 /)
chmod 711 "$room"
chmod -R a+rX "$room/repository" "$room/program" "$room/stopped.so"
chmod 755 "$room/repository/crates/blkcache/out/blkcache"
if [ "$("${as_nobody[@]}" cat "$room/program" 2>/dev/null | cksum)" != "$(cksum <"$program")" ]; then
    skip 'modes after a kill' 'the program cannot be run as nobody here'
    finish
fi
# Counts in a new folder under umask 777, by the script or by the program alone, until a place: PLACE HOW
counted() {
    rm -rf "$room/killed"
    mkdir "$room/killed"
    [ ${#as_nobody[@]} = 0 ] || chown 65534:65534 "$room/killed"
    again "$@"
}
# The same in the folder that is there.
again() {
    local run=("$BASH" "$room/repository/$2")
    { (umask 777; PLACE=$1 exec "${as_nobody[@]}" "${run[@]}" "$room/killed" count <"$room/input") >"$room/said" 2>"$room/complained"; } 2>/dev/null
    status=$?
    said=$(cat "$room/said")
}
modes() {
    (cd "$room/killed" && shopt -s nullglob && echo $(stat -c %a -- * 2>/dev/null | sort -u))
}
alone=crates/blkcache/out/blkcache
for how in blkcache "$alone"; do
    counted 0 "$how"
    total=$(cat "$room/complained")
    is "in a new folder, by $how: it is counted" "0 $empty_line 600" "$status $said $(modes)"
    is "in a new folder, by $how: there are places" yes "$([ "$total" -gt 16 ] && echo yes)"
    opened=0 refused=0
    for ((place = 1; place <= total; place++)); do
        counted "$place" "$how"
        is "killed at place $place, by $how" 137 "$status"
        left=$(modes)
        again '' blkcache
        case $status in
            0)
                opened=$((opened + 1))
                is "killed at place $place, by $how: what is made, and what is counted then" "yes $empty_line 600" "$([[ $left = @(|600) ]] && echo yes) $said $(modes)"
                ;;
            *)
                refused=$((refused + 1))
                is "killed at place $place, by $how: a file without a mode" '3 yes' "$status$said $([[ $left = 0* ]] && echo yes)"
                ;;
        esac
    done
    echo "killed at each of $total places of a new folder under umask 777, by $how: $opened folders are opened then, $refused are refused"
    # The index and the four block files.
    is "the folders that are refused, by $how" "$([ "$how" = blkcache ] && echo 0 || echo 5)" "$refused"
done
finish
