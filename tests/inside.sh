# Whatever the arguments, nothing is changed but cache files of the folder: each call of the program is seen by strace, and has to be one that
# changes nothing, or is on a file of the folder with a cache file's name, or on an output.
. "$(dirname "${BASH_SOURCE[0]}")/common.sh"

if ! command -v strace >/dev/null || ! strace -y -o /dev/null true 2>/dev/null; then
    skip 'the calls of the program' 'strace is missing, or may not look at a program'
    finish
fi

mkdir "$room/seen"
folder=$(cd "$room/seen" && pwd -P)
name='(index|data_[0-9]+|f_[0-9a-f]{6,7})'
one="[0-9]+<$folder/$name>"
changes="^((pwrite64|ftruncate)\\($one, |fchmod\\($one, 0600\\) |unlink\\(\"$name\"\\) )"
opens="^openat\\(AT_FDCWD<$folder>, \"$name\", O_RDWR(\\|O_CREAT\\|O_EXCL)?(\\|O_NOCTTY|\\|O_CLOEXEC|\\|O_LARGEFILE)*(, 0600)?\\) = [0-9]+<$folder/$name>\$"
only_reads='^openat\(AT_FDCWD<[^>]*>, "[^"]*", O_RDONLY(\|O_NOCTTY|\|O_CLOEXEC|\|O_NOFOLLOW|\|O_DIRECTORY|\|O_LARGEFILE)*\) '
locks="^flock\\([0-9]+<$folder>, LOCK_(EX|SH)\\|LOCK_NB\\) "

# Leaves 0 where a call is one that may be made. Counts those that change a file.
is_allowed() {
    case $1 in
        pwrite64\(* | ftruncate\(* | fchmod\(* | unlink\(*) [[ $1 =~ $changes ]] && changed=$((changed + 1)) ;;
        pread64\(* | read\(* | close\(* | statx\(* | newfstatat\(* | fstat\(* | lseek\(* | getdents64\(* | access\(* | readlink\(* | poll\(*) ;;
        openat\(*O_RDONLY*) [[ $1 =~ $only_reads ]] ;;
        openat\(*O_CREAT*) [[ $1 =~ $opens ]] && changed=$((changed + 1)) ;;
        openat\(*) [[ $1 =~ $opens ]] ;;
        write\([12]\<*) ;;
        flock\(*) [[ $1 =~ $locks ]] ;;
        chdir\(*) goes_in=$((goes_in + 1)) ;;
        execve\(*) runs=$((runs + 1)) ;;
        mmap\(*MAP_PRIVATE* | munmap\(* | mremap\(* | mprotect\(* | madvise\(* | brk\(* | futex\(* | rseq\(* | getrandom\(* | prlimit64\(*) ;;
        arch_prctl\(* | set_tid_address\(* | set_robust_list\(* | rt_sig* | sigaltstack\(* | sched_getaffinity\(* | clock_gettime\(*) ;;
        gettid\(* | getpid\(* | uname\(* | exit_group\(* | '+++ exited with '*) ;;
        fcntl\(*F_DUPFD_CLOEXEC,* | fcntl\(*F_GETFL\)* | fcntl\(*F_GETFD\)*) ;;
        *) false ;;
    esac
}

# Runs the program with arguments. Leaves its status, how many calls change a file, and the calls that may not be made.
look() {
    local line
    timeout 60 strace -y -s 16 -o "$room/calls" "$program" "$folder" "$@" <"$room/input" >"$room/said" 2>"$room/complained"
    status=$?
    changed=0 goes_in=0 runs=0 others=
    while IFS= read -r line; do
        is_allowed "$line" || others+="$line;"
    done <"$room/calls"
}

# What the arguments do on a folder of a kind: their status, and whether they change something.
looks() {
    local kind=$1 wanted=$2
    rm -rf "$folder"
    make "$kind" "$folder"
    look "${@:3}"
    is "$kind, ${*:3}: the status, and whether a file is changed" "$wanted" "$status $([ "$changed" -gt 0 ] && echo changed || echo same)"
    is "$kind, ${*:3}: it goes into the folder once, and is one program" '1 1' "$goes_in $runs"
    is "$kind, ${*:3}: no other call" '' "$others"
}
head -c 20000 /dev/zero >"$room/twenty"
for BLKCACHE_ERASE in 0 1; do
    export BLKCACHE_ERASE
    for kind in empty finished entries; do
        : >"$room/input"
        looks "$kind" '0 changed' count
        looks "$kind" '0 changed' list
        looks "$kind" "$([ "$kind" = entries ] && echo 0 || echo 1) changed" get a 0
        looks "$kind" "$([ "$kind" = entries ] && echo 0 || echo 1) changed" doom a
        looks "$kind" '0 changed' trim 0
        looks "$kind" '0 changed' gen 3 40
        looks "$kind" '0 same' verify
        looks "$kind" '0 same' inspect index
        looks "$kind" '2 same' no-word-of-it
        cp "$room/twenty" "$room/input"
        looks "$kind" '0 changed' put a 0
        printf '%s\n' 'create 0 new' 'write 0 0 0 616263' 'cut 0 0 1 -' 'create 1 s' 'swrite 1 1048570 61626364656667' 'close 1' 'doomkey s' >"$room/input"
        looks "$kind" '0 changed' session
    done
    : >"$room/input"
    looks damaged '7 same' count
    looks damaged '7 same' trim 0
    # A file of its own that is cut, and removed; and a folder that is made anew.
    rm -rf "$folder"
    make entries "$folder"
    cp "$room/twenty" "$room/input"
    look put a 0
    is 'a file of its own is made' "0 yes " "$status $([ -e "$folder/f_000001" ] && echo yes) $others"
    printf '%s\n' 'open 0 a' 'cut 0 0 18000 -' 'close 0' >"$room/input"
    look session
    is 'it is cut' "0 18000 " "$status $(stat -c %s "$folder/f_000001") $others"
    : >"$room/input"
    look doom a
    is 'it is removed' '0 gone ' "$status $([ -e "$folder/f_000001" ] || echo gone) $others"
    rm "$folder/index"
    look count
    is 'a folder is made anew' '0 ' "$status $others"
done

# The rights of a file that is made are put right by its descriptor.
before=$(umask)
rm -rf "$folder"
mkdir "$folder"
umask 777
look count
umask "$before"
is 'under umask 777' '0 5 ' "$status $(count_like 'fchmod(*' <"$room/calls") $others"

# While another program swaps a name. What is in its place may be opened then, and nothing else is done with it. A file of the folder has
# at that moment the name of what is in its place. That the file outside isn't written, which has the swapped name then, shows its time.
if ! command -v cc >/dev/null || ! cc -o "$room/swapped" "$top/tests/swapped.c" 2>/dev/null; then
    skip 'the calls of the program while a name is swapped' 'cc is missing'
    finish
fi
aside=$(cd "$room" && pwd -P)/aside
elsewhere=$room/elsewhere
mkdir "$room/two" "$elsewhere" "$aside" "$aside/folder"
digits=$(printf '7a%.0s' {1..20000})
printf '%s\n' 'create 0 a' "write 0 0 0 $digits" 'create 1 b' "write 1 0 0 $digits" 'close 0' 'close 1' >"$room/input"
run "$room/two" session
is 'two entries with files of their own' '0 f_000001 f_000002' "$status $(cd "$room/two" && echo f_*)"
ln -s "$elsewhere/file" "$aside/link"
ln -s "$elsewhere/nothing" "$aside/link-to-nothing"
mkfifo "$aside/fifo"
one="[0-9]+<($folder/$name|$aside/[a-z.-]+)>"
changes="^((pwrite64|ftruncate)\\($one, |fchmod\\($one, 0600\\) )"
opens="^openat\\(AT_FDCWD<$folder>, \"$name\", O_RDWR(\\|O_NOCTTY|\\|O_CLOEXEC|\\|O_LARGEFILE)*\\) = "

# Where the run was refused: as the names were read, at an opening of the name, or later.
refused_at() {
    local line at=names
    while IFS= read -r line; do
        case $line in
            openat\(*"\"$1\", O_RDWR"*) at=opening ;;
            pread64\(* | pwrite64\(*) [ "$at" = names ] || at=later ;;
        esac
    done <"$room/calls"
    echo "$at"
}

# Runs the program while a name is swapped, until it was refused at each of these: NAME WORDS
looks_beside_swaps() {
    local swapped=$1 tries at wrong= before swapper
    declare -A refusals=()
    shift
    rm -f "$elsewhere/file" "$aside/second-name"
    cp "$room/two/$swapped" "$elsewhere/file"
    ln "$elsewhere/file" "$aside/second-name"
    before=$(both "$elsewhere")
    for ((tries = 0; tries < 2000 && ${#refusals[@]} < 3 || tries < 20; tries++)); do
        rm -rf "$folder"
        cp -a "$room/two" "$folder"
        : >"$room/going"
        "$room/swapped" "$room/going" 8000 4000 "$folder/$swapped" "$aside/"* >"$room/swaps" &
        swapper=$!
        look "$@"
        rm "$room/going"
        wait "$swapper" || wrong+=' not swapped'
        wrong+=$others
        case $status in
            0) ;;
            3)
                at=$(refused_at "$swapped")
                refusals[$at]=$((${refusals[$at]-0} + 1))
                ;;
            *) wrong+=" status $status" ;;
        esac
    done
    echo "$tries runs while $swapped was swapped: refused ${refusals[names]-0} at the names," \
        "${refusals[opening]-0} at an opening, ${refusals[later]-0} later"
    is "$swapped swapped, $*: it is refused as the names are read, at an opening, and later" 3 "${#refusals[@]}"
    is "$swapped swapped, $*: no other call, and no other status" '' "$wrong"
    is "$swapped swapped, $*: what is outside" "$before" "$(both "$elsewhere")"
}
: >"$room/input"
looks_beside_swaps index count
looks_beside_swaps data_1 count
{
    printf '%s\n' 'open 0 a' 'open 1 b'
    for number in {1..20}; do
        printf '%s\n' 'write 0 0 0 6162' 'write 1 0 0 6162'
    done
} >"$room/input"
looks_beside_swaps f_000001 session
finish
