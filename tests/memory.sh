# The program is given less and less room in memory. Where there is too little it ends with 6, prints nothing and leaves the folder as
# it was; where there is enough it does what it always does. MEMORY_STEP says how many kB each try has less than the one before.
. "$(dirname "${BASH_SOURCE[0]}")/common.sh"

step=${MEMORY_STEP:-64}
most=65536

# Runs the program with arguments and so many kB of memory. Leaves its status, and what it printed.
with_room() {
    { (ulimit -v "$1" && exec "$program" "${@:2}") <"$room/input" >"$room/said" 2>"$room/complained"; } 2>/dev/null
    status=$?
    said=$(cat "$room/said")
}

# Whether the program starts with so many kB: it says that the arguments are outside its grammar, or that there is no memory.
starts() {
    with_room "$1" "$room/made" no-word-of-it
    [ "$status $said" = '2 usage' ] || [ "$status $said" = '6 ' ]
}

if ! (ulimit -v "$most") 2>/dev/null; then
    skip 'too little memory' 'ulimit -v is not supported here'
    finish
fi
with_room "$most" "$room/made" no-word-of-it
if [ "$status $said" != '2 usage' ]; then
    skip 'too little memory' "the program does not run in $most kB"
    finish
fi

# The least room with which it starts, to the step.
low=0
high=$most
while [ $((high - low)) -gt "$step" ]; do
    middle=$(((low + high) / 2))
    if starts "$middle"; then high=$middle; else low=$middle; fi
done
first=$high

# Arguments outside the grammar ask for no memory after the folder's names and its window: where 6 is answered, one of these had none. The
# names of an empty folder take no room to speak of, so where there is too little by more than some pages it was the window.
mkdir "$room/none"
before=$(both "$room/none")
refused=0
for ((kb = first; kb < most; kb += step)); do
    with_room "$kb" "$room/none" no-word-of-it
    # (139: the stack has no room to grow, and the system ends the program)
    [ "$status" = 6 ] || [ "$status" = 139 ] || break
    refused=$((refused + step))
    [ -z "$said" ] || is "6 without a word, in $kb kB" '' "$said"
done
is 'words outside the grammar, once there is room' '2 usage' "$status $said"
is 'the window is refused its memory: a range of at least 128 kB' yes "$([ "$refused" -ge 128 ] && echo yes || echo "$refused kB")"
is 'the folder is left as it was' "$before" "$(both "$room/none")"

# Each subcommand, on a folder of each kind, with more and more room: 6 and nothing done, up to where it does what it always does. The program's
# stack grows in the same room, and where it finds none the system stops the program (139): such a try shows nothing, and the folder is
# made anew.
refuses() {
    local kind=$1 before kb answers=
    make "$kind" "$room/tried"
    before=$(both "$room/tried")
    for ((kb = first; kb < most; kb += step)); do
        with_room "$kb" "$room/tried" "${@:3}"
        case $status in
            6)
                answers=some
                if [ -n "$said" ] || [ "$before" != "$(both "$room/tried")" ]; then
                    is "$kind, ${*:3}: 6 does nothing, in $kb kB" nothing "$said$(picture "$room/tried" | head -c 200)"
                fi
                ;;
            139)
                rm -rf "$room/tried"
                make "$kind" "$room/tried"
                before=$(both "$room/tried")
                ;;
            *) break ;;
        esac
    done
    is "$kind, ${*:3}: too little room is told by 6" some "$answers"
    is "$kind, ${*:3}: with room it is done" "$2" "$status $said"
    rm -rf "$room/tried"
}
printf 'create 0 new\nwrite 0 0 0 616263\nclose 0\n' >"$room/input"
for kind in empty finished entries; do
    refuses "$kind" "0 $(line_of "$kind")" count
    refuses "$kind" $'0 ok\nok 3\nok' session
done
printf abc >"$room/input"
refuses entries $'0 ok\nok 3\nok' put new 0
refuses entries $'0 main a 0 0 0\nend 1' list
refuses entries $'0 ok\ndata 0 -\nok' get a 0
refuses damaged "7 $(line_of damaged)" count
finish
