# The script ./blkcache: what it answers itself, when it builds, and what it leaves. Its rt and its git are stand-ins here.
. "$(dirname "${BASH_SOURCE[0]}")/common.sh"

repository=$room/repository
out=$repository/crates/blkcache/out
stubs=$room/stubs
calls=$room/calls
folder=$room/folder
export room calls stubs
export TMPDIR=$room/temporary
mkdir -p "$out" "$stubs" "$folder" "$TMPDIR"
mkdir "$repository/dist"
cp "$top/blkcache" "$top/crates.txt" "$repository"
echo 1.2.0-dev >"$repository/VERSION"
cp "$top/dist/build.sh" "$repository/dist"
while IFS=: read -r name _; do
    [[ $name == '#'* || -z $name ]] || mkdir -p "$repository/crates/${name%% *}"/{src,specs,proofs}
done <"$top/crates.txt"
touch -d '1 hour ago' "$repository/crates.txt" "$repository/crates"/*/{src,specs,proofs}

# A git that knows one commit, with the crates that the file commit names, the changes that the file changes has, and the new files that the
# file new has; those of the file ignored are new too, and ignored.
cat >"$stubs/git" <<'END'
echo "git $3" >>"$calls"
case ${3-} in
    rev-parse) [ -s "$room/commit" ] && echo "$(<"$room/commit")" ;;
    ls-files) echo -n "$(<"$room/new")$(<"$room/ignored")" ;;
    status) echo -n "$(<"$room/changes")$([[ " $* " == *'files=no '* ]] || echo "$(<"$room/new")")" ;;
    log) echo 2026-01-02 ;;
esac
END
# Names a commit whose crates, and their list, have these names.
commit() {
    : >"$room/commit"
    [ -z "$1" ] || printf '%040x\n%040x\n' "$1" "$1" >"$room/commit"
}
# An rt that proves nothing, and answers `rt ci` alone: a line for each crate of the repository that it is in, which it keeps, and at the end
# the program. It fails at the crate that the file fails names, and then continues until it is ended, or it fails after all; it hangs at
# the crate that hangs names. It says what the file notes has, does what meanwhile has, and leaves what it was given.
cat >"$stubs/rt" <<'END'
[ "$1" != version ] || { echo 'some kit'; exit 0; }
echo "rt $*" >>"$calls"
hang() {
    echo "$$" >"$room/hanging"
    while :; do read -r -t 1 _ <>"$room/never" || :; done
}
shopt -s globstar dotglob
for it in **; do [ ! -f "$it" ] || echo "$it"; done >"$room/given"
echo "$(<crates.txt)" >"$room/listed.txt"
fails=$(<"$room/fails")
hangs=$(<"$room/hangs")
[ ! -e "$room/meanwhile" ] || . "$room/meanwhile"
[ ! -e "$room/notes" ] || echo "$(<"$room/notes")"
while IFS=: read -r name _; do
    crate=${name%% *}
    [ "$crate" != "$hangs" ] || hang
    if [ -e "$room/kept/$crate" ]; then
        echo "rt: $crate is kept: an earlier run on this machine proved the same files over the same libraries"
        continue
    fi
    printf '== %s\nmuch is said of %s\n' "$crate" "$crate"
    if [ "$crate" = "$fails" ]; then
        echo "rt: $crate NOT PROVED"
        hang
    fi
    : >"$room/kept/$crate"
    echo "rt: $crate proved"
done <crates.txt
mkdir -p crates/blkcache/out
[ "$fails" = 'to link' ] || cp "$room/program" crates/blkcache/out/blkcache
[ "$fails" != 'to stay' ] || kill -KILL $$
if [ "$fails" = 'to run' ]; then
    printf 'rt: FAILED: blkcache (run)\n3 passed, 1 failed\n'
    exit 1
fi
echo '4 passed, 0 failed'
END
# A program that says what it was given, and notes that it ran.
cat >"$room/program" <<'END'
[ $# != 0 ] || { echo usage; exit 2; }
[ "$2" != surroundings ] || { echo "[${BLKCACHE_WAIT-unset}] [${BLKCACHE_ERASE-unset}] $(umask)" $(trap -p XFSZ TERM INT HUP PIPE); exit 0; }
echo ran >>"$room/ran"
printf 'words:'
printf ' %q' "$@"
read -r line
echo " input: $line"
exit 4
END
for it in "$stubs/git" "$stubs/rt" "$room/program"; do
    printf '%s\n' "#!$BASH" "$(<"$it")" >"$it"
    chmod +x "$it"
done
for it in bash cp du mkdir mv nproc readlink rm sha256sum sleep touch; do
    ln -s "$(type -P "$it")" "$stubs/$it"
done
mkfifo "$room/never"
mkdir "$room/kept"
commit 1
: >"$room/changes"
: >"$room/new"
: >"$room/ignored"
: >"$room/fails"
: >"$room/hangs"

# Runs the wrapper with arguments, with nothing on its path but the stand-ins and what it is said to need. Leaves its status, what it said, how often
# it built, and what it called, with the three calls of git at its start, which are made at once, as one line.
wrap() {
    : >"$calls"
    rm -f "$room/ran"
    PATH=$stubs "$BASH" "$repository/blkcache" "$@" <"$room/line" >"$room/said" 2>"$room/complained"
    status=$?
    said=$(cat "$room/said")
    complained=$(cat "$room/complained")
    called=$(cat "$calls")
    builds=$(count_like 'rt ci' <"$calls")
    if [ "$(head -n 3 "$calls" | sort)" = $'git ls-files\ngit rev-parse\ngit status' ]; then
        called=$(echo 'git is asked' && tail -n +4 "$calls")
    fi
}
echo caller >"$room/line"

# Why the program at hand was not taken, as the first line of a build tells.
said_why() {
    local why=${complained%%$'\n'*}
    why=${why#*' crates, since '}
    echo "${why%', up to '*}"
}

# Whether the rt that hung still runs. (What has ended may still be there as a process, and has no program then.)
does_rt_hang() {
    local process=
    [ ! -e "$room/hanging" ] || process=$(cat "$room/hanging")
    [ -n "$process" ] && [ -e "/proc/$process/exe" ] && echo yes || echo no
}

# What the build may leave: the program and the note of its commit, and nothing among the temporary files.
left() {
    (cd "$out" && echo *)
    (cd "$TMPDIR" && shopt -s nullglob dotglob && echo *)
}

# What the wrapper answers itself, with no call of another program.
answers() {
    is "$1: the status" "$2" "$status"
    is "$1: the output" "$3" "$said"
    is "$1: the errors" "$4" "$complained"
    is "$1: nothing is called" '' "$called"
}
wrap
answers 'no word' 2 usage ''
wrap "$folder"
answers 'a folder alone' 2 usage ''
wrap "$room/nowhere"
answers 'a folder alone that is not there' 2 usage ''
wrap "$room/nowhere" count
answers 'a folder that is not there' 3 '' "blkcache: no such folder: $room/nowhere"
wrap "$calls" count
answers 'a file in place of the folder' 3 '' "blkcache: no such folder: $calls"
for it in $'\xff' $'a\xe4b' $'\xe2\x82' $'\xc0\xaf' $'\xed\xa0\x80' $'\xf4\x90\x80\x80'; do
    wrap "$folder" "$it"
    answers "the word $(printf %q "$it")" 2 usage ''
    wrap "$it" count
    answers "the folder $(printf %q "$it")" 2 usage ''
done
wrap --help
# (what the page says is compared with the manual by tests/docs.sh)
is '--help is a page' 'usage: blkcache [--wait SECONDS] FOLDER COMMAND [OPTIONS]' "${said%%$'\n'*}"
said=
answers '--help' 0 '' ''
wrap --version
is '--version' '0 blkcache 1.2.0-dev (2026-01-02) git log' "$status $said$complained $called"
echo '1.2.0 (2026-03-04)' >"$repository/VERSION"
wrap --version
answers '--version of what is installed' 0 'blkcache 1.2.0 (2026-03-04)' ''
rm "$repository/VERSION"
wrap --version
is '--version without the file of the version' '0 blkcache unknown (2026-01-02)' "$status $said$complained"
for it in --help --version; do
    PATH=$stubs "$BASH" "$repository/blkcache" "$it" >&- 2>"$room/complained"
    is "$it with a closed output" '5 ' "$? $(cat "$room/complained")"
    if [ -w /dev/full ]; then
        PATH=$stubs "$BASH" "$repository/blkcache" "$it" >/dev/full 2>"$room/complained"
        is "$it with a full output" '5 ' "$? $(cat "$room/complained")"
    else
        skip "$it with a full output" 'there is no /dev/full'
    fi
done

# The first run builds, a line for each crate, those below first; then the program has the caller's arguments, input and status.
wrap "$folder" count 'two words'
is 'after the build the program runs' "4 words: $(printf '%q ' "$folder" count)two\\ words input: caller" "$status $said"
order=()
while IFS= read -r line; do
    [[ $line =~ ^blkcache:\ ([a-z_0-9]+)\ proved,\ ([0-9]+)\ of\ ([0-9]+),\ after\ [0-9]+\.[0-9]\ minutes$ ]] || continue
    order+=("${BASH_REMATCH[1]}")
    is "the number of ${BASH_REMATCH[1]}" "${#order[@]}" "${BASH_REMATCH[2]}"
    total=${BASH_REMATCH[3]}
done <<<"$complained"
is 'the number of crates' "$total" "${#order[@]}"
is 'one line before them, and none besides' "$((total + 1))" "$(wc -l <"$room/complained")"
is 'the last crate is the program' blkcache "${order[-1]}"
first='^blkcache: proving and building ([0-9]+) crates, since .*/blkcache is missing, up to ([0-9]+) at once where memory holds them; the first time takes about [0-9]+ min, judged by the size of the sources, and less where rt has proved some before$'
[[ ${complained%%$'\n'*} =~ $first ]]
told=$?
# (as many at once as there are processors, or fewer where memory is short)
is 'the first line tells how many crates, and how long' "0 $total yes" \
    "$told ${BASH_REMATCH[1]} $([ "${BASH_REMATCH[2]}" -ge 1 ] && [ "${BASH_REMATCH[2]}" -le "$(nproc)" ] && echo yes)"

# rt is given the crates that the program uses, each after those that it uses, and no others.
declare -A below=() listed=() wanted=()
while IFS=: read -r name crates; do
    [[ $name == '#'* || -z $name ]] || below[${name%% *}]=$crates
done <"$top/crates.txt"
want() {
    local it
    [ -n "${below[$1]+there}" ] && [ -z "${wanted[$1]-}" ] || return 0
    wanted[$1]=yes
    for it in ${below[$1]}; do want "$it"; done
}
want blkcache
for name in "${order[@]}"; do
    for it in ${below[$name]}; do
        [ -z "${below[$it]+there}" ] || [ -n "${listed[$it]-}" ]
        is "$it is listed before $name" 0 $?
    done
    listed[$name]=yes
done
is 'the crates are those that the program stands on' "$(printf '%s\n' "${!wanted[@]}" | sort)" "$(printf '%s\n' "${order[@]}" | sort)"
is 'each with its line of crates.txt' "$total" "$(while IFS= read -r line; do [[ $'\n'$(<"$top/crates.txt")$'\n' != *$'\n'"$line"$'\n'* ]] || echo "$line"; done <"$room/listed.txt" | wc -l)"
is 'rt is called once' $'git is asked\ngit rev-parse\ngit status\nrt ci\ngit status' "$called"
is 'nothing else is left' $'blkcache blkcache.commit build.times\n' "$(left)"$'\n'

# From here on there are four crates.
printf '%s\n' '# NAME: DEP DEP ..' 'blkcache may_wait=0: blk_run blk_io' 'spec_image:' 'blk_io: spec_image hex' 'blk_io_tests staticlib: blk_io' 'blk_run: spec_image' >"$repository/crates.txt"
touch -d '1 hour ago' "$repository/crates.txt"
total=4

# What the program gets beside its arguments: how long it waits, what its caller set, a limit of the size of files as a failed write, and
# files for their owner alone, whatever the caller's umask.
surrounded() {
    local signal ignored=
    for signal in XFSZ TERM INT HUP PIPE; do
        # (what was ignored before this script began stays so)
        [ "$signal" != XFSZ ] && [ -z "$("$BASH" -c "trap -p $signal")" ] || ignored+=" trap -- '' SIG$signal"
    done
    wrap "${@:2}" "$folder" surroundings
    is "what surrounds the program under umask $(umask), ${*:2}" "0 $1 0077$ignored" "$status $said"
}
surrounded '[unset] [unset]'
for it in 0 7 999999999; do
    surrounded "[$it] [unset]" --wait "$it"
    BLKCACHE_WAIT=3 BLKCACHE_ERASE=1 surrounded "[$it] [1]" --wait "$it"
done
BLKCACHE_WAIT=3 surrounded '[3] [unset]'
mask=$(umask)
for it in 000 022 077 277 777; do
    umask "$it"
    surrounded '[unset] [unset]'
    umask "$mask"
done
for it in x -1 '' 01 1.5 1000000000; do
    wrap --wait "$it" "$folder" count
    is "--wait [$it]" '2 usage' "$status $said$complained"
done

# A run on a built program calls git alone, and builds nothing.
wrap "$folder" count
is 'a run on a built program' "4 words: $folder count input: caller" "$status $said$complained"
is 'what it calls' 'git is asked' "$called"
sleep 0.05
touch "$repository/crates/blk_io/src"
wrap "$folder" count
is 'the times of the sources are not asked' 'git is asked' "$called"
echo ' M crates/blk_io/src/mem.rt' >"$room/changes"
wrap "$folder" count
is 'unless one was changed' 1 "$builds"
is 'what was proved before is said to be' "$((total + 1)) $total" "$(wc -l <"$room/complained") $(count_like 'blkcache: * was proved before, [1-4] of 4' <"$room/complained")"
: >"$room/changes"
touch -d '1 hour ago' "$repository/crates/blk_io/src"
wrap "$folder" count
wrap "$folder" count
is 'once the change is gone it is noted' 'git is asked' "$called"

# A new file is seen as a change is; one that git ignores is none.
echo 'crates/blk_io/src/new.rt' >"$room/ignored"
wrap "$folder" count
is 'a new file that git ignores' $'git is asked\ngit status' "$called"
: >"$room/ignored"
echo '?? crates/blk_io/src/new.rt' >"$room/new"
wrap "$folder" count
is 'a new file that is no newer than the program' $'4 git is asked\ngit status\ngit status' "$status $called"
sleep 0.05
touch "$repository/crates/blk_io/src"
wrap "$folder" count
is 'a new file in a folder that is newer is built' 1 "$builds"
: >"$room/new"
touch -d '1 hour ago' "$repository/crates/blk_io/src"
wrap "$folder" count
sleep 0.05
touch "$repository/crates/blk_io/src"

# With other crates it builds again; where no source is newer than the program it notes the commit alone.
commit 2
wrap "$folder" count
is 'other crates are built' 1 "$builds"
is 'and it is said' "$((total + 1))" "$(wc -l <"$room/complained")"
[[ ${complained%%$'\n'*} == *'; the last time here took 0.'[0-9]' minutes, and proved 0 anew' ]]
is 'with how long it took the last time' 0 $?
touch -d '1 hour ago' "$repository/crates/blk_io/src"
commit 3
wrap "$folder" count
is 'crates that are no newer are not built' $'git is asked\ngit status' "$called"
wrap "$folder" count
is 'which is noted' 'git is asked' "$called"
commit 4
echo ' M crates/blk_io/src/mem.rt' >"$room/changes"
for it in once twice; do
    wrap "$folder" count
    is "what is not committed is not noted ($it)" $'git is asked\ngit status' "$called"
done
sleep 0.05
touch "$repository/crates/blk_io/src"
wrap "$folder" count
is 'what is not committed is built' 1 "$builds"
touch -d '1 hour ago' "$repository/crates/blk_io/src"
: >"$room/changes"
wrap "$folder" count
cp "$room/program" "$out/blkcache"
sleep 0.05
touch "$repository/crates/blk_io/src"
wrap "$folder" count
is 'a program that was built apart is compared with its sources' 1 "$builds"
touch -d '1 hour ago' "$repository/crates/blk_io/src"

# rt is given what is proved of these crates, with what the program is run on, and nothing else.
echo 'Handles allowed: none.' >"$repository/HANDLES"
mkdir -p "$repository/crates/blk_io"/{proofs/deep,must-fail,out/rlib} "$repository/crates/blkcache/data/deep"
for it in src/lib.rt specs/Io.antt proofs/deep/turns.antt must-fail/wrong.edit out/rlib/made README.md stdin; do echo "$it" >"$repository/crates/blk_io/$it"; done
for it in src/main.rt stdin stdout args status data/deep/one; do echo "$it" >"$repository/crates/blkcache/$it"; done
mkdir -p "$repository/crates/blk_io_tests/src"
echo tests >"$repository/crates/blk_io_tests/src/lib.rt"
rm -r "$out" "$room/kept"/*
wrap "$folder" count
is 'what rt is given' "HANDLES crates.txt crates/blk_io/proofs/deep/turns.antt crates/blk_io/specs/Io.antt crates/blk_io/src/lib.rt $(echo crates/blkcache/{args,data/deep/one,src/main.rt,status,stdin,stdout})" "$(echo $(sort <"$room/given"))"
is 'the lines of crates.txt that it is given' $'spec_image:\nblk_run: spec_image\nblk_io: spec_image hex\nblkcache may_wait=0: blk_run blk_io' "$(cat "$room/listed.txt")"
is 'each is proved anew' 4 "$(count_like 'blkcache: * proved, [1-4] of 4, after *' <"$room/complained")"
rm -r "$repository/HANDLES" "$repository/crates/blk_io"/{must-fail,out,README.md,stdin} "$repository/crates/blkcache"/{stdin,stdout,args,status,data}
touch -d '1 hour ago' "$repository/crates"/{blk_io/{src,specs,proofs,proofs/deep},blkcache/src,blk_io_tests/src}{,/*}

# What is changed while rt proves is built by the next run, also where it was committed; the program is of what was copied.
rm -r "$out"
echo 'read -r -t 0.05 _ <>"$room/never" || :; : >"$room/repository/crates/blk_io/src/lib.rt"' >"$room/meanwhile"
wrap "$folder" count
is 'a source is changed while rt proves' '4 1' "$status $builds"
rm "$room/meanwhile"
commit 2
wrap "$folder" count
is 'and committed behind it: it is built' '4 1' "$status $builds"
wrap "$folder" count
is 'and then no more' '4 git is asked' "$status $called"
commit 1
touch -d '1 hour ago' "$repository/crates/blk_io/src"{,/*}
wrap "$folder" count

# What rt notes, and that it waits, is passed on.
printf 'rt: note: %s\nrt: %s; waiting for it\n' 'the disk is nearly full' 'blk_io: another run on this machine is proving the same' >"$room/notes"
rm -r "$out"
wrap "$folder" count
is 'what rt notes' $'blkcache: note: the disk is nearly full\nblkcache: blk_io: another run on this machine is proving the same; waiting for it' "$(head -n 3 "$room/complained" | tail -n 2)"
rm "$room/notes"

# It builds too where it is called by a path that begins in another folder.
rm -r "$out"
(cd "$room" && : >"$calls" && CDPATH=$repository PATH=$stubs "$BASH" repository/blkcache folder count <line >said 2>complained)
is 'by a relative path' "4 words: folder count input: caller 1" "$? $(cat "$room/said") $(count_like 'rt ci' <"$calls")"

# Where git knows no commit, the sources are looked at.
: >"$room/commit"
wrap "$folder" count
is 'no commit' "4 words: $folder count input: caller git is asked" "$status $said$complained $called"
commit 1

# A build that fails says where the log is, and what is above is not tried: rt is ended.
rm -r "$out"/*
while read -r fails why; do
    rm -rf "$room/kept"/* "$room/hanging"
    echo "${fails/to_/to }" >"$room/fails"
    wrap "$folder" count
    last=$(tail -n 1 "$room/complained")
    is "a build that fails ($fails)" "70 blkcache: $why; the log is $out/build.log" "$status $said$last"
    [ "${fails%%_*}" = to ] && named=blkcache || named=$fails
    [[ $(<"$out/build.log") == $'== spec_image\nmuch is said of spec_image\n'*"much is said of $named"* ]]
    is "the log has what rt said ($fails)" 0 $?
    is "rt has ended ($fails)" no "$(does_rt_hang)"
    rm -f "$out/build.log"
    is "nothing else is left where it fails ($fails)" $'*\n' "$(left)"$'\n'
done <<'END'
blk_io blk_io is not proved
blkcache blkcache is not proved
to_link rt ci made no program
to_run rt ci ended with status 1
to_stay rt ci ended with status 137
END
: >"$room/fails"

# An interrupt ends rt, leaves nothing, and what was proved is kept.
echo blk_io >"$room/hangs"
for it in INT:130 TERM:143 HUP:129; do
    if [[ $(trap -p "${it%:*}") == *"''"* ]]; then
        skip "${it%:*}" 'the tests themselves run where it is ignored'
        continue
    fi
    rm -rf "$room/hanging" "$room/kept"/*
    set -m
    PATH=$stubs "$BASH" "$repository/blkcache" "$folder" count <"$room/line" >"$room/said" 2>"$room/complained" &
    wrapper=$!
    set +m
    for ((i = 0; i < 400; i++)); do
        [ ! -s "$room/hanging" ] || [ "$(wc -l <"$room/complained")" -lt 3 ] || break
        sleep 0.05
    done
    is "${it%:*}: two crates are told while rt goes on" $'spec_image proved, 1 of 4\nblk_run proved, 2 of 4' "$(while read -r _ line; do [[ $line != *', after '* ]] || echo "${line%, after *}"; done <"$room/complained")"
    kill -s "${it%:*}" "$wrapper"
    wait "$wrapper" 2>/dev/null
    is "${it%:*}: the status" "${it#*:}" "$?"
    is "${it%:*}: the output" '' "$(cat "$room/said")"
    is "${it%:*}: the last line" 'blkcache: interrupted; what is proved so far is kept' "$(tail -n 1 "$room/complained")"
    is "${it%:*}: nothing is left" $'*\n' "$(left)"$'\n'
    is "${it%:*}: what was proved is kept" 'blk_run spec_image' "$(echo $(ls "$room/kept"))"
    is "${it%:*}: rt has ended" no "$(does_rt_hang)"
done

# While the sources are copied an interrupt comes to the copying too; and where they can't be copied the log says why.
mv "$stubs/cp" "$room/cp"
printf '%s\n' "#!$BASH" ': >"$room/copying"' 'while :; do read -r -t 1 _ <>"$room/never" || :; done' >"$stubs/cp"
chmod +x "$stubs/cp"
set -m
PATH=$stubs "$BASH" "$repository/blkcache" "$folder" count <"$room/line" >"$room/said" 2>"$room/complained" &
wrapper=$!
set +m
for ((i = 0; i < 400; i++)); do
    [ ! -e "$room/copying" ] || break
    sleep 0.05
done
kill -s TERM -- "-$wrapper"
wait "$wrapper" 2>/dev/null
is 'while it copies: the status, the output and the last line' '143 blkcache: interrupted; what is proved so far is kept' "$? $(cat "$room/said")$(tail -n 1 "$room/complained")"
is 'while it copies: nothing is left' $'*\n' "$(left)"$'\n'
printf '%s\n' "#!$BASH" 'echo "cp: no room" >&2' 'exit 1' >"$stubs/cp"
wrap "$folder" count
[[ "$status $complained" == "70 "*$'\n'"blkcache: $out/proving."+([0-9])"/top cannot be made; the log is $out/build.log" ]]
is 'where it cannot copy' "0 cp: no room" "$? $(cat "$out/build.log")"
rm "$out/build.log"
is 'where it cannot copy: nothing else is left' $'*\n' "$(left)"$'\n'
mv "$room/cp" "$stubs/cp"

# What a build that was killed left is removed by the next, and its rt ended, and two builds at once go one after another.
rm -f "$room/hanging"
set -m
PATH=$stubs "$BASH" "$repository/blkcache" "$folder" count <"$room/line" >"$room/said" 2>"$room/complained" &
wrapper=$!
set +m
for ((i = 0; i < 400; i++)); do
    [ ! -s "$room/hanging" ] || break
    sleep 0.05
done
kill -KILL "$wrapper"
wait "$wrapper" 2>/dev/null
is 'a build was killed, and its rt goes on' "yes $out/proving.$wrapper" "$(does_rt_hang) $(echo "$out"/proving.*)"
: >"$room/hangs"
(PATH=$stubs "$BASH" "$repository/blkcache" "$folder" count <"$room/line" >"$room/second" 2>&1) &
wrap "$folder" count
wait "$!"
is 'behind a build that was killed' "4 words: $folder count input: caller" "$status $said"
is 'the rt of the killed build has ended' no "$(does_rt_hang)"
is 'what it proved is kept' 2 "$(cat "$room/second" "$room/complained" | count_like 'blkcache: * was proved before, [12] of 4')"
is 'the second at once has the program too' "words: $folder count input: caller" "$(tail -n 1 "$room/second")"
is 'one of the two waits' yes "$(cat "$room/second" "$room/complained" | while read -r line; do [[ $line != *'waiting for the build of process '* ]] || echo yes; done)"
is 'one of the two builds' 1 "$(cat "$room/second" "$room/complained" | while read -r line; do [[ $line != *'proving and building '* ]] || echo 1; done)"
is 'nothing but the program is left' $'blkcache blkcache.commit build.times\n' "$(left)"$'\n'

# The program at hand: it is run where SOURCES names the commit's crates, no source was changed, its sum is right and it runs here.
hand=$repository/dist/${BASH_VERSINFO[5]%%-*}-linux
mkdir "$hand"
describe() {
    local sum
    sum=$(sha256sum <"$hand/blkcache")
    printf 'crates %040x\ncrates.txt %040x\nkit some kit\nsha256 %s\n' "$1" "$1" "${sum%% *}" >"$hand/SOURCES"
}
# Makes all as it is to be, and nothing built.
lay() {
    rm -rf "$repository"/crates/*/out "$hand"/*
    cp "$room/program" "$hand/blkcache"
    describe 1
    commit 1
    : >"$room/changes"
    : >"$room/new"
    : >"$room/ignored"
}
lay
wrap "$folder" count 'two words'
is 'the program at hand runs, and nothing is said' "4 words: $folder count two\\ words input: caller" "$status $said$complained"
is 'git is asked at once, and no more' 'git is asked' "$called"
wrap --program
is '--program names it' "0 $hand/blkcache" "$status $said$complained"
commit ''
wrap "$folder" count
is 'where git knows no commit it runs too' "4 words: $folder count input: caller git is asked" "$status $said$complained $called"
sleep 0.05
touch "$repository/crates/blk_io/specs"
wrap "$folder" count
is 'unless a source is newer than SOURCES' "4 blkcache $((total + 1))" "$status $(tail -n 1 <<<"${said:+blkcache}") $(wc -l <"$room/complained")"
is 'which is said' 'a source was changed' "$(said_why)"
lay
echo ' M crates/blk_io/src/mem.rt' >"$room/changes"
wrap "$folder" count
is 'a change that is not committed is built' "4 $((total + 1)) a source was changed" "$status $(wc -l <"$room/complained") $(said_why)"
lay
echo '?? crates/blk_io/src/new.rt' >"$room/new"
wrap "$folder" count
is 'a new file is built' "4 $((total + 1)) a source was changed" "$status $(wc -l <"$room/complained") $(said_why)"
lay
echo 'crates/blk_io/src/new.rt' >"$room/ignored"
wrap "$folder" count
is 'a new file that git ignores is none' $'4 git is asked\ngit status' "$status $complained$called"

# Each way in which it may be wrong: it is built, or one line says why that cannot be; and no program whose sum is wrong runs.
cut_short() { truncate -s -5 "$hand/blkcache"; }
other_byte() { patch "$hand/blkcache" 3 '\040'; }
no_bytes() { : >"$hand/blkcache"; }
no_run_bit() { chmod -x "$hand/blkcache"; }
other_machine() {
    cp "$program" "$hand/blkcache"
    patch "$hand/blkcache" 18 '\363\000'
    describe 1
}
no_program() { rm "$hand/blkcache"; }
no_sources() { rm "$hand/SOURCES"; }
two_lines() { printf '%s\n' "$(head -n 2 "$hand/SOURCES")" >"$hand/SOURCES"; }
five_lines() { echo more >>"$hand/SOURCES"; }
other_sources() { describe 2; }
other_list() { printf '%s\n' "$(head -n 1 "$hand/SOURCES")" "crates.txt $(printf %040x 2)" "$(tail -n 2 "$hand/SOURCES")" >"$hand/SOURCES"; }
while read -r what why; do
    lay
    "$what"
    wrap "$folder" count
    is "${what//_/ }: it is built" "4 words: $folder count input: caller $((total + 1))" "$status $said $(wc -l <"$room/complained")"
    is "${what//_/ }: the first line says why" "${why//HAND/$hand}" "$(said_why)"
    rm -rf "$repository"/crates/*/out "$room/ran"
    mv "$stubs/rt" "$room/rt"
    wrap "$folder" count
    mv "$room/rt" "$stubs/rt"
    is "${what//_/ }: without rt one line says why" "70 blkcache: ${why//HAND/$hand}, and there is no rt here to build it" "$status $said$complained"
    is "${what//_/ }: it is not run" no "$([ -e "$room/ran" ] && echo yes || echo no)"
    mv "$stubs/rt" "$room/rt"
    wrap --prove
    mv "$room/rt" "$stubs/rt"
    is "${what//_/ }: --prove without rt" '70 blkcache: there is no rt here to prove the program' "$status $said$complained"
done <<'END'
cut_short HAND/blkcache has another SHA-256 than SOURCES
other_byte HAND/blkcache has another SHA-256 than SOURCES
no_bytes HAND/blkcache has another SHA-256 than SOURCES
no_run_bit HAND/blkcache has no run bit
other_machine HAND/blkcache does not run on this machine
no_program HAND/blkcache is missing
no_sources HAND/SOURCES is not as dist/renew writes it
two_lines HAND/SOURCES is not as dist/renew writes it
five_lines HAND/SOURCES is not as dist/renew writes it
other_sources HAND/SOURCES names other sources
other_list HAND/SOURCES names other sources
END

# --prove builds whatever there is, and tells in its last line whether the program is the one at hand.
lay
wrap --prove
is '--prove builds, and finds the same program' "0 proved, 0 of 4 crates anew; the program is the same, byte for byte, as $hand/blkcache $((total + 1))" "$status $said $(wc -l <"$room/complained")"
is '--prove runs the program on no folder' no "$([ -e "$room/ran" ] && echo yes || echo no)"
wrap --prove
is '--prove builds once more' "0 $((total + 1))" "$status $(wc -l <"$room/complained")"
wrap "$folder" count
is 'what was built is run, and not what is at hand' '4 git is asked' "$status $called"
wrap --program
is '--program names what was built' "0 $out/blkcache" "$status $said$complained"
other_byte
wrap --prove
is '--prove finds another program' "1 proved, 0 of 4 crates anew; the program is not the same as $hand/blkcache" "$status $said"
rm "$hand/SOURCES"
wrap --prove
is '--prove finds none' "1 proved, 0 of 4 crates anew; there is no $hand/blkcache with its SOURCES to compare with" "$status $said"
lay
rm "$hand/blkcache"
wrap --program
is '--program builds nothing' "70 blkcache: $hand/blkcache is missing; use blkcache --prove to build the program git is asked" "$status $said$complained $called"

# dist/renew makes the program that was built the one at hand, and dist/check tells whether it is.
cp "$top/dist/common.sh" "$top/dist/renew" "$top/dist/check" "$repository/dist"
for it in cat chmod dirname; do ln -s "$(type -P "$it")" "$stubs/$it"; done
in_dist() {
    PATH=$stubs "$BASH" "$repository/dist/$1" >"$room/said" 2>"$room/complained"
    status=$?
    said=$(cat "$room/said" "$room/complained")
}
lay
stale="dist/${hand##*/} is not the program of these sources: dist/renew makes it so, and is to be committed"
in_dist check
is 'dist/check where nothing is built' "1 there is no $out/blkcache: rt ci builds it" "$status $said"
mkdir -p "$out"
cp "$room/program" "$out/blkcache"
in_dist renew
is 'dist/renew' "0 dist/${hand##*/} is that of the sources: commit it" "$status $said"
in_dist check
is 'dist/check behind it' '0 ' "$status $said"
for what in cut_short other_byte no_run_bit no_sources two_lines five_lines other_sources other_list; do
    in_dist renew
    "$what"
    in_dist check
    is "dist/check: ${what//_/ }" "1 $stale" "$status $said"
done
in_dist renew
kit=$("$stubs/rt" version)
mapfile -t told <"$hand/SOURCES"
told[2]='kit of another day'
printf '%s\n' "${told[@]}" >"$hand/SOURCES"
in_dist check
is 'dist/check with another kit that README does not name' "1 $stale" "$status $said"
echo 'proved with `of another day`' >"$repository/README.md"
in_dist check
is 'dist/check with another kit' "0 skipped whether dist/${hand##*/} is the program that was built: it is of kit of another day, and here is kit $kit" "$status $said"
other_byte
in_dist check
is 'dist/check with another kit and another byte' "1 $stale" "$status $said"
rm "$repository/README.md"
in_dist renew
commit 2
in_dist check
is 'dist/check behind another commit' "1 $stale" "$status $said"
echo ' M crates/blk_io/src/mem.rt' >"$room/changes"
for it in check renew; do
    in_dist "$it"
    is "dist/$it with a change that is not committed" '1 crates has changes that are not committed: commit them, and have rt ci build the program' "$status $said"
done
lay
rm -r "$hand"
mkdir -p "$out"

# What the real git finds: the program at hand runs over the commit's files alone. There is no rt here, so what is found is told.
real=$room/real
tools=$room/tools
mkdir -p "$real/crates/blk_io"/{src,specs,proofs/deep,must-fail,out} "$real/dist/${hand##*/}" "$tools"
for it in bash du git sha256sum; do ln -s "$(type -P "$it")" "$tools/$it"; done
cp "$top/blkcache" "$real"
cp "$top/dist/build.sh" "$real/dist"
cp "$room/program" "$real/dist/${hand##*/}/blkcache"
for it in src/lib.rt specs/Io.antt proofs/Io.antt proofs/deep/turns.antt must-fail/wrong.edit; do echo "$it" >"$real/crates/blk_io/$it"; done
echo 'blk_io:' >"$real/crates.txt"
printf '%s\n' 'crates/*/out/' '*.swp' >"$real/.gitignore"
in_real() {
    HOME=$room GIT_CONFIG_NOSYSTEM=1 GIT_CEILING_DIRECTORIES=$room git -C "$real" -c user.name=n -c user.email=e@e "$@" >/dev/null 2>&1
}
# Commits the sources, and has SOURCES name that commit's crates.
settle() {
    in_real add crates crates.txt .gitignore && in_real commit -m sources
    {
        echo "crates $(git -C "$real" rev-parse HEAD:crates)"
        echo "crates.txt $(git -C "$real" rev-parse HEAD:crates.txt)"
        echo 'kit some kit'
        sum=$(sha256sum <"$real/dist/${hand##*/}/blkcache")
        echo "sha256 ${sum%% *}"
    } >"$real/dist/${hand##*/}/SOURCES"
}
# What the wrapper says there: nothing where it runs the program, else why it does not.
heard() {
    local told
    told=$(HOME=$room PATH=$tools "$BASH" "$real/blkcache" "$folder" count 2>&1 >/dev/null <"$room/line")
    told=${told#blkcache: }
    echo "${told%, and there is no rt here to build it}"
}
in_real init
settle
changed='a source was changed'
is 'the real git: all is committed' '' "$(heard)"
for it in src/new.rt specs/New.antt must-fail/new.edit new; do
    echo new >"$real/crates/blk_io/$it"
    is "the real git: the new file $it" "$changed" "$(heard)"
    rm "$real/crates/blk_io/$it"
done
mkdir "$real/crates/blk_new"
is 'the real git: a new folder without a file' '' "$(heard)"
echo new >"$real/crates/blk_new/new"
is 'the real git: a new folder' "$changed" "$(heard)"
rm -r "$real/crates/blk_new"
for it in out/lib src/lib.rt.swp; do
    echo new >"$real/crates/blk_io/$it"
    is "the real git: the new file $it, which it ignores" '' "$(heard)"
    rm "$real/crates/blk_io/$it"
done
for it in src/lib.rt specs/Io.antt proofs/Io.antt proofs/deep/turns.antt must-fail/wrong.edit; do
    sleep 0.01
    touch "$real/crates/blk_io/$it"
    is "the real git: $it with a new time" '' "$(heard)"
    echo more >>"$real/crates/blk_io/$it"
    is "the real git: $it is changed" "$changed" "$(heard)"
    in_real add crates
    is "the real git: $it is changed, and staged" "$changed" "$(heard)"
    rm "$real/crates/blk_io/$it"
    is "the real git: $it is removed" "$changed" "$(heard)"
    in_real reset --hard
    is "the real git: $it is as it was" '' "$(heard)"
done
echo new >"$real/crates/blk_io/proofs/deep/new.antt"
is 'the real git: a new proof, which makes no other program' '' "$(heard)"
touch -d '1 hour ago' "$real/crates.txt" "$real/crates/blk_io"/{src,specs,proofs}{,/*} "$real/crates/blk_io/proofs/deep/turns.antt"
mv "$real/.git" "$room/away"
is 'without a commit a new proof is seen by its time' "$changed" "$(heard)"
rm "$real/crates/blk_io/proofs/deep/new.antt"
touch -d '1 hour ago' "$real/crates/blk_io/proofs/deep"
is 'and without it nothing is' '' "$(heard)"
mv "$room/away" "$real/.git"
echo more >>"$real/crates/blk_io/src/lib.rt"
in_real commit -am 'other sources'
is 'the real git: other sources are committed' "$real/dist/${hand##*/}/SOURCES names other sources" "$(heard)"

# Through the wrapper too, closed streams lose nothing, and a folder's name may be relative to the caller's.
cp "$program" "$out/blkcache"
for closed in '' 0 1 2 '0 1 2'; do
    make finished "$room/closed"
    before=$(held "$room/closed")
    (
        cd "$room" || exit
        for it in $closed; do eval "exec $it>&-"; done
        PATH=$stubs exec "$BASH" "$repository/blkcache" closed count
    ) <"$room/line" >"$room/said" 2>"$room/complained"
    status=$?
    [[ $closed == *1* ]] && wanted='5 ' || wanted="0 $empty_line"
    is "with [$closed] closed" "$wanted" "$status $(cat "$room/said" "$room/complained")"
    is "with [$closed] closed, the folder" "$before" "$(held "$room/closed")"
    rm -r "$room/closed"
done

# It may be called by a link, from anywhere.
ln -s "$repository/blkcache" "$room/link"
make finished "$room/last"
wrapped=$(cd / && PATH=$stubs "$BASH" "$room/link" "$room/last" count 2>&1)
is 'by a link' "0 $empty_line" "$? $wrapped"
finish
