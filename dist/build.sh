# Proves and builds the program, for ./blkcache, which reads this file where it has to. What proves is the kit's `rt ci`, in a copy of what
# the program's proof reads: the crates that it uses, without tests and must-fail edits. rt proves them side by side, and keeps each
# that is proved, for later builds and for the gate.

# How many bytes of the crates' folders one processor proves in a second: by it a first build is judged.
bytes_a_second=4500

# Lists the crates that the program uses, each after those that it uses, and last the program.
declare -A below=() line_of=() seen=()
order=()
add() {
    local it
    [ -n "${below[$1]+there}" ] && [ -z "${seen[$1]-}" ] || return 0
    seen[$1]=yes
    for it in ${below[$1]}; do
        add "$it"
    done
    order+=("$1")
}
list_crates() {
    local line name
    while IFS= read -r line || [ -n "$line" ]; do
        name=${line%%[ :]*}
        [[ $name == '#'* || -z $name ]] || below[$name]=${line#*:} line_of[$name]=$line
    done <"$here/crates.txt"
    add blkcache
}

# A number of seconds as minutes with a tenth.
minutes() {
    local tenths=$((($1 * 10 + 30) / 60))
    printf -v "$2" '%d.%d' $((tenths / 10)) $((tenths % 10))
}

# Counts the crates that are proved at once: one a processor, where there are three gigabytes of free memory for each, and one at the least.
# (rt reckons twice of what a proof here takes, and gives a lone crate more processors, by which it takes half again as much of them in all.)
count_lanes() {
    local name kilobytes rest
    at_once=$(nproc)
    while read -r name kilobytes rest; do
        [ "$name" != MemAvailable: ] || [ $((kilobytes / 3000000)) -ge "$at_once" ] || at_once=$((kilobytes / 3000000))
    done </proc/meminfo
    [ "$at_once" -ge 1 ] || at_once=1
}

# Says what comes, and about how long it takes.
announce() {
    local took='' anew='' time bytes
    { read -r took anew <"$out/build.times"; } 2>/dev/null || :
    if [[ $took == +([0-9]) && $anew == +([0-9]) ]]; then
        minutes "$took" time
        time="the last time here took $time minutes, and proved $anew anew"
    else
        bytes=$({ CDPATH= cd -- "$here/crates" && du -scb --exclude=out -- "${order[@]}"; } 2>/dev/null) || :
        bytes=${bytes##*$'\n'}
        # (More than two at once gain little: the upper half of the crates is one chain, and memory holds two of its proofs.)
        time=$((10#0${bytes%%[!0-9]*} / bytes_a_second / (at_once < 2 ? at_once : 2) / 60 + 1))
        time="the first time takes about $time min, judged by the size of the sources, and less where rt has proved some before"
    fi
    say "proving and building ${#order[@]} crates${why:+, since $why}, up to $at_once at once where memory holds them; $time"
}

# Lets no other build into this repository, and waits for one that is under way. What a killed one left is removed.
hold() {
    local other words tries=0 it
    waited=
    mkdir -p "$out" || fail "$out cannot be made"
    # (rt takes no link in out/)
    until (set -o noclobber && echo "$$" >"$out/building") 2>/dev/null; do
        other=
        { read -r other <"$out/building"; } 2>/dev/null || :
        if [ -z "$other" ] && [ $((tries += 1)) -lt 50 ]; then
            sleep 0.1
            continue
        fi
        [ -n "$other" ] || [ -e "$out/building" ] || fail "$out cannot be written"
        words=()
        { mapfile -d '' -t words <"/proc/$other/cmdline"; } 2>/dev/null || :
        if [[ " ${words[*]}" != *blkcache* ]]; then
            # It was killed. Two that take its place at once may meet: what is taken away has to be its own.
            mv -T "$out/building" "$out/building.$$" 2>/dev/null || continue
            [ "$(<"$out/building.$$")" = "$other" ] || mv -nT "$out/building.$$" "$out/building"
            rm -f "$out/building.$$"
            continue
        fi
        [ -n "$waited" ] || say "waiting for the build of process $other"
        waited=yes
        sleep 1
    done
    held=yes
    for it in "$out"/proving.*; do
        [ ! -d "$it" ] || sweep "$it"
    done
}

# Removes what a killed build left, and ends its rt where that still runs: it is the process that was noted, if it works in the copy.
sweep() {
    local process=
    { read -r process <"$1/process"; } 2>/dev/null || :
    [ -z "$process" ] || [ ! "/proc/$process/cwd" -ef "$1/top" ] || kill -TERM "$process" 2>/dev/null || :
    remove "$1"
}

# Removes a build's folder. What rt started ends just after it, and may still write there.
remove() {
    local tries=0
    until rm -rf -- "$1" 2>/dev/null || [ $((tries += 1)) -ge 50 ]; do
        sleep 0.1
    done
}

# Copies what is proved into a repository of its own. (Links would change times of the sources, by which an rt that runs beside knows that
# nobody touches them.)
copy() {
    local it lines='' files=() parts=(HANDLES crates/blkcache/{stdin,stdout,args,status,data})
    for it in "${order[@]}"; do
        lines+=${line_of[$it]}$'\n'
        parts+=("crates/$it"/{src,specs,proofs})
    done
    for it in "${parts[@]}"; do
        [ ! -e "$here/$it" ] || files+=("$it")
    done
    mkdir -p "$top/.git" || fail "$top cannot be made"
    (
        printf %s "$lines" >"$top/crates.txt" && CDPATH= cd -- "$here" && cp -r --parents -t "$top" -- "${files[@]}"
    ) 2>"$stage/log" || fail "$top cannot be made"
}

# Tells of each crate that is proved, and ends rt at the first that isn't.
hear() {
    local name time
    [ -z "$failed" ] || return 0
    if [[ $1 =~ ^rt:\ ([a-z0-9_]+)(:\ its\ tests\ are)?\ NOT\ PROVED ]]; then
        failed="${BASH_REMATCH[1]} is not proved"
        kill -TERM "$!" 2>/dev/null || :
    elif [[ $1 =~ ^rt:\ ([a-z0-9_]+)\ (proved$|is\ kept:) ]]; then
        name=${BASH_REMATCH[1]} told=$((told + 1))
        minutes "$SECONDS" time
        if [ "${BASH_REMATCH[2]}" = proved ]; then
            anew=$((anew + 1))
            say "$name proved, $told of ${#order[@]}, after $time minutes"
        else
            say "$name was proved before, $told of ${#order[@]}"
        fi
    elif [[ $1 == 'rt: note: '* || $1 == 'rt: '*'; waiting for it' ]]; then
        say "${1#rt: }"
    fi
}

# Has rt prove the copy, and hears what it says.
run_rt() {
    local line lines status=0
    earlier=${!-}
    exec {lines}< <({ CDPATH= cd -- "$top" && RT_JOBS=$at_once exec rt ci; } </dev/null 2>&1)
    echo "$!" 2>/dev/null >"$stage/process" || :
    while IFS= read -r line <&"$lines" || [ -n "$line" ]; do
        printf '%s\n' "$line" 2>/dev/null >>"$stage/log" || :
        hear "$line"
    done
    exec {lines}<&-
    wait "$!" || status=$?
    earlier=$!
    [ -z "$failed" ] || fail "$failed"
    [ "$status" = 0 ] || fail "rt ci ended with status $status"
    [ -x "$made" ] || fail 'rt ci made no program'
}

# Ends rt, which ends what it started, and leaves no other file of the build. It takes the process that was started last, since a signal
# may come before a number is noted.
end_all() {
    trap '' INT TERM HUP
    if [ "${!-}" != "$earlier" ]; then
        kill -TERM "$!" 2>/dev/null || :
        wait "$!" 2>/dev/null || :
        earlier=$!
    fi
    [ -z "$stage" ] || remove "$stage"
    [ -z "$held" ] || rm -f "$out/building"
    held=
}
stop() {
    end_all
    say "interrupted; what is proved so far is kept"
    exit "$1"
}

# Says why the program did not build, and where rt's words are.
fail() {
    local log=
    [ -z "$stage" ] || ! mv -f "$stage/log" "$out/build.log" 2>/dev/null || log="; the log is $out/build.log"
    end_all
    say "$1$log"
    exit 70
}

# Proves and builds all.
build() {
    local earlier=${!-} held='' stage='' top made failed='' told=0 anew=0 waited at_once
    if ! type -P rt >/dev/null; then
        [ -z "${why-}" ] || fail "$why, and there is no rt here to build it"
        fail 'there is no rt here to prove the program'
    fi
    [ $((BASH_VERSINFO[0] * 100 + BASH_VERSINFO[1])) -ge 501 ] || fail 'to build, bash 5.1 is needed'
    trap 'stop 129' HUP
    trap 'stop 130' INT
    trap 'stop 143' TERM
    hold
    if [ -n "$waited" ] && [ -z "${proving-}" ]; then
        ask_git
        earlier=$!
        if is_built; then
            end_all
            trap - HUP INT TERM
            return
        fi
    fi
    SECONDS=0
    stage=$(CDPATH= cd -- "$out" && pwd)/proving.$$
    top=$stage/top made=$stage/top/crates/blkcache/out/blkcache
    list_crates
    count_lanes
    announce
    copy
    # The program is of the commit's crates where the copy is, whatever is changed from now on.
    name_crates
    is_committed || crates=
    run_rt
    # It has the time of the start, so that a source that was changed meanwhile is newer.
    touch -r "$out/building" "$made" && mv -f "$made" "$built" || fail "$built cannot be written"
    echo "$SECONDS $anew" 2>/dev/null >"$out/build.times" || :
    end_all
    trap - HUP INT TERM
    program=$built
    note
}
