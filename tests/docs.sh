# What users read: README, the manual page, --help, the completion and the changes. Sentences and lines are short, the examples print what the
# program prints, each list of the manual page is the one that the others shorten, and its names and limits are those of the sources, as are the
# defaults and limits in --help and README. Each check is shown to refuse an error that is planted.
. "$(dirname "${BASH_SOURCE[0]}")/common.sh"

# Prints the pieces of README on lines of their own: each begins with the number of its line, and a paragraph, an item of a list, a cell of a
# table and a heading are a piece each. What is code by its indentation is left out, and so is where a link leads.
pieces_of_readme() {
    local line piece= start=0 number=0 cell
    while IFS= read -r line || [ -n "$line" ]; do
        number=$((number + 1))
        while [[ $line =~ ^(.*)\]\([^\)]*\)(.*)$ ]]; do line="${BASH_REMATCH[1]}]${BASH_REMATCH[2]}"; done
        case $line in
            '' | '    '* | '#'* | '|'* | '- '* | [0-9]*.\ *)
                [ -z "$piece" ] || echo "$start $piece"
                piece=
                ;;
        esac
        case $line in
            '' | '    '*) ;;
            '|'*)
                local IFS='|'
                for cell in $line; do [ -z "${cell// /}" ] || echo "$number $cell"; done
                unset IFS
                ;;
            '#'*) echo "$number $line" ;;
            *)
                [ -n "$piece" ] || start=$number
                piece+=" $line"
                ;;
        esac
    done <"$1"
    [ -z "$piece" ] || echo "$start $piece"
}

# The same of the manual page: a sentence ends at the end of a line, and a piece at each macro that begins something new. Displays are left out.
pieces_of_manual() {
    local line piece= start=0 number=0 shown=yes
    while IFS= read -r line || [ -n "$line" ]; do
        number=$((number + 1))
        case $line in
            .Bd*) shown= ;;
            .Ed*) shown=yes ;;
        esac
        case $line in
            .S[hs]* | .It* | .Pp* | .[BE][dl]* | .D[dt]* | .Os* | .N[md]*)
                [ -z "$piece" ] || echo "$start $piece"
                piece=
                continue
                ;;
            '.\"'*) continue ;;
        esac
        [ -n "$shown" ] || continue
        [ -n "$piece" ] || start=$number
        [[ $line != .* ]] || line=${line#.* }
        piece+=" $line"
        if [[ $line == *[.!?] ]]; then
            echo "$start $piece"
            piece=
        fi
    done <"$1"
    [ -z "$piece" ] || echo "$start $piece"
}

# Tells each sentence of the pieces on the input that has more than forty words. A word has a letter or a digit.
long_sentences() {
    local number piece word words
    while read -r number piece; do
        words=0
        set -f
        for word in $piece; do
            [[ $word != *[[:alnum:]]* ]] || words=$((words + 1))
            if [[ $word == *[.!?] || $word == *[.!?][\)\"] ]]; then
                [ "$words" -le 40 ] || echo "line $number: a sentence of $words words"
                words=0
            fi
        done
        set +f
        [ "$words" -le 40 ] || echo "line $number: a sentence of $words words"
    done
}

# Tells each line that is too wide, and a page that is too long. (A character of UTF-8 has one byte that doesn't continue one before.)
wide_lines() {
    local line number=0
    while IFS= read -r line || [ -n "$line" ]; do
        number=$((number + 1))
        line=${line//[$'\x80'-$'\xbf']/}
        [ "${#line}" -le 120 ] || echo "line $number: ${#line} columns"
    done <"$1"
    [ "$number" -lt 90 ] || echo "$number lines"
}

# Tells each relative link that leads to no file of the repository.
dead_links() {
    local line link
    while IFS= read -r line || [ -n "$line" ]; do
        while [[ $line =~ ^(.*)\]\(([^\)]*)\)(.*)$ ]]; do
            line=${BASH_REMATCH[1]} link=${BASH_REMATCH[2]%%#*}
            [[ -z $link || $link == *://* || -e $top/$link ]] || echo "$link is not there"
        done
    done <"$1"
}

# Tells each page that the manual page names and that is not there.
dead_pages() {
    local line
    while IFS= read -r line || [ -n "$line" ]; do
        [[ ! $line =~ ^\.Pa\ (docs/[^ ]+) || -e $top/${BASH_REMATCH[1]} ]] || echo "${BASH_REMATCH[1]} is not there"
    done <"$1"
}

# Prints the examples of a page as they are: the lines that are indented in README, and those of displays in the manual page.
examples_of() {
    local line shown=
    while IFS= read -r line || [ -n "$line" ]; do
        case $line in
            .Bd*) shown=yes && continue ;;
            .Ed*) shown= ;;
        esac
        if [ -n "$shown" ]; then
            line=${line//\\e/\\}
            echo "${line//\\&/}"
        elif [[ $line == '    '* ]]; then
            echo "${line:4}"
        fi
    done <"$1"
}

# Runs the examples of a page in a new folder, each line that begins with '$ ', and prints each with what came. There ./blkcache and blkcache are
# the program as it is installed.
run_examples() {
    local line shown
    rm -rf "$room/examples"
    mkdir "$room/examples"
    ln -s "$room/installed/bin/blkcache" "$room/examples/blkcache"
    examples_of "$1" | while IFS= read -r line; do
        [[ $line == '$ '* ]] || continue
        echo "$line"
        (cd "$room/examples" && PATH=$room/installed/bin:$PATH exec "$BASH" -c "${line:2}" </dev/null 2>&1)
    done
}
# Tells the first line in which the examples of a page differ from those that were run.
wrong_examples() {
    local wanted got number
    mapfile -t wanted < <(examples_of "$1")
    mapfile -t got <<<"$2"
    [ "${wanted[*]}" != "${got[*]}" ] || return 0
    for ((number = 0; number < ${#wanted[@]}; number++)); do
        [ "${wanted[number]}" = "${got[number]-}" ] || break
    done
    echo "'${wanted[number]-}' on the page, '${got[number]-}' by the program"
}

# Prints what a page of --help lists, a line for each: what it is, and how it is spelled.
lists_of_help() {
    local line kind= head words
    while IFS= read -r line; do
        case $line in
            Commands:) kind=command && continue ;;
            Options: | Alone*:) kind=option && continue ;;
            Lines*:) kind=line && continue ;;
            Environment:) kind=variable && continue ;;
            Exit*:) kind=status && continue ;;
            '  '[!\ ]*) ;;
            '') kind= && continue ;;
            *) continue ;;
        esac
        line=${line:2}
        head=${line%%  *}
        case $kind in
            '') ;;
            status) for it in ${head//,/}; do echo "status $it"; done ;;
            line)
                echo "line $head"
                words=${line#"$head"}
                words=${words#"${words%%[! ]*}"}
                [ -z "$words" ] || echo "line $words"
                ;;
            *) echo "$kind $head" ;;
        esac
    done <<<"$1"
}

# Leaves the head of an item of the manual page as it is shown.
show_head() {
    local it text= dashes= closing=
    set -f
    for it in $1; do
        case $it in
            Cm | Ar | Ev | Li | Pa) ;;
            Fl) dashes=- ;;
            Op) text+=' [' closing=] ;;
            *)
                [[ -z $text || $text == *'[' ]] || text+=' '
                text+=$dashes$it dashes=
                ;;
        esac
    done
    set +f
    text=${text# }
    head=${text//'  '/ }$closing
}

# The same of the manual page, and the parts that inspect prints.
lists_of_manual() {
    local line section= depth=0 head
    while IFS= read -r line; do
        case $line in
            .S[hs]*) section=${line#.S? } ;;
            .Bl*) depth=$((depth + 1)) ;;
            .El*) depth=$((depth - 1)) ;;
            '.It '*)
                show_head "${line#.It }"
                case $depth:$section in
                    1:COMMANDS) echo "command $head" ;;
                    2:COMMANDS) echo "part $head" ;;
                    1:OPTIONS) echo "option $head" ;;
                    1:'SESSION SCRIPTS') echo "line $head" ;;
                    1:ENVIRONMENT) echo "variable $head" ;;
                    1:'EXIT STATUS') for it in ${head//,/}; do echo "status $it"; done ;;
                esac
                ;;
        esac
    done <"$1"
}

# Prints what the completion gives: the arguments after the program, after the folder, after inspect and after reset.
lists_of_completion() (
    . "$1"
    cd "$room/none" || exit
    for it in blkcache 'blkcache cache' 'blkcache cache inspect' 'blkcache cache reset'; do
        COMP_WORDS=($it '')
        COMP_CWORD=$((${#COMP_WORDS[@]} - 1))
        _blkcache
        [ "${#COMPREPLY[@]}" = 0 ] || printf '%s\n' "${COMPREPLY[@]}"
    done
)
mkdir "$room/none"

# Prints the first words of what is listed: those of commands and parts, options, and what is in brackets.
first_words() {
    local kind head
    while read -r kind head; do
        case $kind in
            command | part | option)
                echo "${head%% *}"
                [[ $head != *'['* ]] || head=${head#*'['}
                [[ $head != *']' ]] || echo "${head%']'}"
                ;;
        esac
    done
}

# Prints the commands and statuses in the tables of README.
lists_of_readme() {
    local line kind= cell it
    while IFS= read -r line; do
        case $line in
            '| Command |'*) kind=command ;;
            '| Exit status'*) kind=status ;;
            '|--'*) ;;
            '| '*)
                cell=${line#'| '}
                cell=${cell%%' |'*}
                local IFS=,
                for it in $cell; do
                    it=${it//\`/}
                    [ -z "$kind" ] || echo "$kind ${it# }"
                done
                unset IFS
                ;;
            *) kind= ;;
        esac
    done <"$1"
}

# Prints the lines that two lists don't share.
differing() {
    comm -3 <(sort -u <<<"$1") <(sort -u <<<"$2") | tr -d '\t'
}
only_of() {
    local line
    while IFS= read -r line; do [[ $line != @($1)\ * ]] || echo "$line"; done <<<"$2"
}
shopt -s extglob

# Tells the parts of inspect that a page of --help leaves out.
missing_parts() {
    local text it
    text=$(echo $1)
    while read -r _ it; do [[ $text == *"$it"* ]] || echo "$it"; done < <(only_of part "$2")
}

# Prints the items of a subsection of the manual page that have a number and a name, and those of an enumeration of the sources: FILE FIRST.
numbered_of_manual() {
    local line section='' head
    while IFS= read -r line; do
        case $line in
            .S[hs]*) section=${line#.S? } ;;
            .It\ +([0-9])\ Li\ *)
                [ "$section" = "$1" ] || continue
                show_head "${line#.It }"
                echo "$head"
                ;;
        esac
    done <"$2"
}
numbered_of_source() {
    local line within=
    while IFS= read -r line; do
        [[ $line != *" $2 = "* ]] || within=yes
        [[ $line != '}'* ]] || within=
        [[ ! $line =~ ^\ +([A-Za-z]+)\ =\ ([0-9]+),$ || -z $within ]] || echo "${BASH_REMATCH[2]} ${BASH_REMATCH[1]}"
    done <"$1"
}

# The same of a table of a page, of its rows that begin with a number and a name; and what the program prints for each name of an enumeration.
numbered_of_table() {
    local line
    while IFS= read -r line; do
        [[ ! $line =~ ^\|\ ([0-9]+)\ \|\ ([A-Za-z]+)\ \| ]] || echo "${BASH_REMATCH[1]} ${BASH_REMATCH[2]}"
    done <"$1"
}
printed_names() {
    local line
    while IFS= read -r line; do
        [[ ! $line =~ ^\ +$2::([A-Za-z]+)\ =\>\ \"([A-Za-z]+)\",$ ]] || echo "${BASH_REMATCH[1]} ${BASH_REMATCH[2]}"
    done <"$1"
}

# Prints the refusals in the table of commands of docs/MODEL.md.
refusals_of_model() {
    local line within= it
    while IFS= read -r line; do
        case $line in
            '| Command | Refusals'*) within=yes ;;
            '|'*)
                [[ -n $within && $line =~ ^\|\ [A-Za-z]+\ \|\ ([A-Z][A-Za-z, ]*)\ \| ]] || continue
                for it in ${BASH_REMATCH[1]}; do echo "${it%,}"; done
                ;;
            *) within= ;;
        esac
    done <"$1"
}

# Adds the numbers in a line to numbers. Some of them are spelled out.
add_numbers() {
    local it
    local -A spelled=([three]=3 [eighth]=8 [nine]=9 [sixteenth]=16)
    set -f
    for it in ${1,,}; do
        it=${it//[!a-z0-9^]/}
        it=${spelled[${it:-none}]-$it}
        [[ $it != [0-9]* ]] || numbers+=" $it"
    done
    set +f
}

# Prints the numbers in the text of an item of the manual page, in what comes before the first item where none is given, or in what follows the
# last one where it is -: SECTION ITEM MANUAL.
numbers_of_manual() {
    local line section= item= head numbers=
    while IFS= read -r line; do
        case $line in
            .S[hs]*) section=${line#.S? } item= ;;
            .El*) item=- ;;
            '.It '*)
                show_head "${line#.It }"
                item=$head
                ;;
            *)
                [[ $section == "$1" && $item == "$2" ]] || continue
                add_numbers "$line"
                ;;
        esac
    done <"$3"
    echo "${numbers# }"
}

# Prints each command and option of a page of --help in whose text there are numbers, with these.
numbers_of_help() {
    local line kind= head= numbers=
    while IFS= read -r line; do
        case $line in
            Commands: | Options: | Alone*:) kind=item ;;
            '  '[!\ ]*)
                [ -z "$kind" ] || {
                    [ -z "$numbers" ] || echo "$head:$numbers"
                    line=${line:2} numbers=
                    head=${line%%  *}
                    add_numbers "${line#"$head"}"
                }
                ;;
            '   '*) [ -z "$kind" ] || add_numbers "$line" ;;
            *)
                [ -z "$numbers" ] || echo "$head:$numbers"
                kind= numbers=
                ;;
        esac
    done <<<"$1"
}

# The same of the table of commands of README, and of its paragraph on what an entry has, whose head is its first words.
numbers_of_readme() {
    local line within= numbers= told
    while IFS= read -r line; do
        case $line in
            '| Command |'*) within=row && continue ;;
            'An entry has '*) within=text ;;
            '|--'*) continue ;;
            '|'* | ?*) ;;
            *)
                [ "$within" != text ] || echo "An entry has:$numbers"
                within= numbers=
                ;;
        esac
        case $within in
            text) add_numbers "$line" ;;
            row)
                told=${line#'| '*' | '} numbers=
                add_numbers "$told"
                [ -z "$numbers" ] || { line=${line%" | $told"} && echo "${line#'| '}:$numbers"; }
                numbers=
                ;;
        esac
    done <"$1"
}

# Tells each line in which the numbers of --help, or of README, differ from those of the definitions: NUMBERS PAGE FILE... The manual page is
# compared with the same definitions below.
wrong_numbers() {
    local page item names it told=$1 wanted=
    local -A sizes=()
    while IFS=: read -r page item names; do
        [ "$page" = "$2" ] || continue
        [ -n "${sizes[bytes]-}" ] || read_sizes "${@:3}"
        wanted+=$item:
        for it in $names; do wanted+=" ${sizes[$it]-$it}"; done
        wanted+=$'\n'
    done <<'END_OF_NUMBERS'
help:get KEY STREAM:0 last_stream
help:put KEY STREAM:longest_input
help:--max N:bytes
help:--items N:items
help:--wait SECONDS:longest_wait
readme:An entry has:stream_count 0 last_stream stream_count stream_count
readme:`put KEY STREAM`, `get KEY STREAM`:longest_input
END_OF_NUMBERS
    differing "$told" "${wanted%$'\n'}"
}

# Leaves in sizes the numbers that files of definitions name, and what follows from them: FILE..
read_sizes() {
    local line digits
    while IFS= read -r line; do
        [[ ! $line =~ ^([a-z_]+)\ =\ ([0-9]+|2\ \^\ [0-9]+)$ ]] || sizes[${BASH_REMATCH[1]}]=${BASH_REMATCH[2]// /}
        [[ ! $line =~ at_most_once\ ([0-9]+)\ parts.counts ]] || sizes[items]=${BASH_REMATCH[1]}
        [[ ! $line =~ at_most_once\ ([0-9]+)\ parts.maxes ]] || sizes[bytes]=${BASH_REMATCH[1]}
        # (the script has it twice, and 0 digits stand for two that differ)
        [[ $line =~ \(0\|\[1-9\]\[0-9\]\{0,([0-9])\}\) ]] || continue
        digits=$((BASH_REMATCH[1] + 1))
        [ "${sizes[wait_digits]-$digits}" = "$digits" ] || digits=0
        sizes[wait_digits]=$digits
    done < <(cat "$@")
    sizes[longest_wait]=$((10 ** sizes[wait_digits] - 1))
    sizes[mebibytes]=$((sizes[bytes] >> 20)) sizes[gibibytes]=$((sizes[largest_offset] >> 30))
    sizes[stream_bytes]=$((sizes[bytes] / sizes[stream_share])) sizes[last_stream]=$((sizes[stream_count] - 1))
}

# Tells each limit of a manual page that the definitions have otherwise: MANUAL FILE..
wrong_limits() {
    local section item names it wanted manual=$1 got
    local -A sizes=()
    shift
    read_sizes "$@"
    while IFS=: read -r section item names; do
        wanted=
        for it in $names; do wanted+=" ${sizes[$it]-$it}"; done
        got=$(numbers_of_manual "$section" "$item" "$manual")
        [ "${wanted# }" = "$got" ] || echo "$section, $item: $got on the page, ${wanted# } in the sources"
    done <<'END_OF_LIMITS'
DESCRIPTION::1 longest_key stream_count 0 1 last_stream 1 last_stream gibibytes 0700
COMMANDS:put KEY STREAM:longest_input 3 stream_count
COMMANDS:gen SEED N:most_turns
SESSION SCRIPTS::handle_names
SESSION SCRIPTS:-:part_size 0 part_block_size
OPTIONS:--max N:1 most_bytes bytes mebibytes
OPTIONS:--items N:1 most_items items
OPTIONS:--wait SECONDS:0 longest_wait
ENVIRONMENT:BLKCACHE_WAIT:0 wait_digits
Refusals:1 BadHandle:handle_names
Refusals:5 BadStream:last_stream
Refusals:6 TooLarge:part_size
Refusals:9 RangeEnd:largest_offset
Refusals:13 BadKey:longest_key
Faults:7 TooLong:longest_line longest_data
LIMITS:Keys:1 longest_key
LIMITS:Streams:stream_count stream_share most_stream stream_bytes
LIMITS:Sparse data:largest_offset gibibytes part_size
LIMITS:Handles:handle_names
LIMITS:Input:longest_input budget
LIMITS:Lines:longest_line longest_data
LIMITS:-:parts_index_charge blocks_index_charge free_share
END_OF_LIMITS
}

# Tells each text that a script says on standard error and that no item of the diagnostics has: MANUAL SCRIPT..
untold_texts() {
    local line items=() text item quote
    while IFS= read -r line; do
        case $line in
            '.Sh DIAGNOSTICS') items=(-) ;;
            .Sh*) [ "${#items[@]}" -lt 2 ] || break ;;
            '.It '*) [ "${#items[@]}" = 0 ] || items+=("${line#.It }") ;;
        esac
    done <"$1"
    shift
    for quote in \' \"; do
        cat "$@" | while IFS= read -r line; do
            [[ $line =~ (say|fail)\ $quote([^$quote]+)$quote ]] || continue
            text=${BASH_REMATCH[2]}
            while [[ $text =~ ^(.*)(\$\{[^\}]*\}|\$[a-z_0-9]+)(.*)$ ]]; do text="${BASH_REMATCH[1]}*${BASH_REMATCH[3]}"; done
            [ -n "${text//\*/}" ] || continue
            for item in "${items[@]}"; do
                # (a build that fails names its log after its text)
                # shellcheck disable=SC2053
                [[ $item != $text && $item != $text'; the log is PATH' ]] || continue 2
            done
            echo "$text"
        done
    done
}

# The program as it is installed, from a copy of the repository without its sources.
repository=$room/repository
hand=dist/${BASH_VERSINFO[5]%%-*}-linux
mkdir -p "$repository/$hand" "$repository/man" "$repository/packaging"
cp "$top/blkcache" "$top/install" "$top/VERSION" "$repository"
cp "$top/man/blkcache.1" "$repository/man"
cp "$top/packaging/completion.bash" "$repository/packaging"
cp "$program" "$repository/$hand/blkcache"
sum=$(sha256sum <"$program")
printf '%s\n' "crates $(printf %040d 1)" "crates.txt $(printf %040d 1)" 'kit some kit' "sha256 ${sum%% *}" >"$repository/$hand/SOURCES"
"$repository/install" "$room/installed"
is 'the program is installed' 0 $?

# Each check, of the pages and of a copy with a planted error: NAME, the call, what is planted (a text of the page and what comes in its place),
# and what has to be told then.
readme=$top/README.md manual=$top/man/blkcache.1 completion=$top/packaging/completion.bash
plant() {
    local text
    text=$(<"$1")
    [[ $text == *"$2"* ]] || echo "FAILED $2 is not in $1"
    printf '%s\n' "${text/"$2"/"$3"}" >"$room/planted"
}
sentences_of_readme() { pieces_of_readme "$1" | long_sentences; }
sentences_of_manual() { pieces_of_manual "$1" | long_sentences; }
long=$(printf 'word %.0s' {1..40})

is 'README: lines and columns' '' "$(wide_lines "$readme")"
plant "$readme" '## Commands' "## Commands$(printf ' %.0s' {1..120})"
is 'planted: a wide line' 'line * columns' "$(said=$(wide_lines "$room/planted"); [[ $said == 'line '*' columns' ]] && echo 'line * columns' || echo "$said")"
printf -v lines '%.0s\n' {1..90}
plant "$readme" '## Commands' "$lines## Commands"
is 'planted: a long page' 'lines' "$(said=$(wide_lines "$room/planted"); echo "${said##* }")"
is 'README: words of a sentence' '' "$(sentences_of_readme "$readme")"
plant "$readme" 'Nothing has to be built.' "Nothing ${long}has to be built."
is 'planted: a long sentence of README' 'a sentence of 45 words' "$(said=$(sentences_of_readme "$room/planted"); echo "${said#*: }")"
plant "$readme" '| done |' "| ${long}done |"
is 'planted: a long cell of README' 'a sentence of 41 words' "$(said=$(sentences_of_readme "$room/planted"); echo "${said#*: }")"
is 'the manual page: words of a sentence' '' "$(sentences_of_manual "$manual")"
plant "$manual" 'The folder has to be there.' "The folder ${long}"$'has\nto be there.'
is 'planted: a long sentence of the manual page' 'a sentence of 46 words' "$(said=$(sentences_of_manual "$room/planted"); echo "${said#*: }")"
is 'README: links' '' "$(dead_links "$readme")"
plant "$readme" '(CONTRIBUTING.md)' '(CONTRIBUTION.md)'
is 'planted: a dead link' 1 "$(dead_links "$room/planted" | count_like 'CONTRIBUTION.md is not there')"

is 'the manual page: the pages that it names' '' "$(dead_pages "$manual")"
plant "$manual" '.Pa docs/FORMAT.md' '.Pa docs/FORMATION.md'
is 'planted: a page that is not there' 1 "$(dead_pages "$room/planted" | count_like 'docs/FORMATION.md is not there')"

came=$(run_examples "$readme")
is 'README: the examples' '' "$(wrong_examples "$readme" "$came")"
[ "$(examples_of "$readme" | count_like '$ *')" -ge 4 ]
is 'README: there are examples' 0 $?
plant "$readme" 'main greeting 6 0 0' 'main greeting 7 0 0'
is 'planted: another output in README' "'main greeting 7 0 0' on the page, 'main greeting 6 0 0' by the program" "$(wrong_examples "$room/planted" "$came")"
[ "$(examples_of "$manual" | count_like '$ *')" -ge 10 ]
is 'the manual page: there are examples' 0 $?
# (reset takes the lock of the folder by flock)
if type -P flock >/dev/null; then
    came=$(run_examples "$manual")
    is 'the manual page: the examples' '' "$(wrong_examples "$manual" "$came")"
    plant "$manual" 'refused 5 BadStream' 'refused 6 BadStream'
    is 'planted: another output in the manual page' "'refused 6 BadStream' on the page, 'refused 5 BadStream' by the program" "$(wrong_examples "$room/planted" "$came")"
    plant "$manual" 'evicted page' 'evicted page'$'\n''evicted page'
    is 'planted: a line too many in the manual page' "'evicted page' on the page, 'evicted s' by the program" "$(wrong_examples "$room/planted" "$came")"
else
    skip 'the examples of the manual page' 'flock is missing'
fi

# Each list is in the manual page; the others have the same, or what they are to have of it.
help=$("$repository/blkcache" --help)
in_help=$(lists_of_help "$help")
in_manual=$(lists_of_manual "$manual")
in_readme=$(lists_of_readme "$readme")
compared='command|option|line|variable|status'
is '--help and the manual page' '' "$(differing "$in_help" "$(only_of "$compared" "$in_manual")")"
is '--help: the parts of inspect' '' "$(missing_parts "$help" "$in_manual")"
is 'README: commands and statuses' '' "$(differing "$in_readme" "$(only_of 'command|status' "$in_manual")")"
words=$(first_words <<<"$in_manual")
is 'the completion' '' "$(differing "$words" "$(lists_of_completion "$completion")")"
for kind in ${compared//|/ } part; do
    [ "$(count_like "$kind *" <<<"$in_manual")" -ge 2 ]
    is "the manual page has items: $kind" 0 $?
done

# What is planted in one of the pages is told of it: what, the page, a text of it and what comes in its place, and what differs then. In all of
# these + is a space, and a comma is the end of a line.
while read -r what page from to told; do
    case $page in
        help) plant <(echo "$help") "${from//+/ }" "${to//+/ }" ;;
        *) plant "${!page}" "${from//+/ }" "${to//+/ }" ;;
    esac
    case $page in
        help) said=$(differing "$(lists_of_help "$(<"$room/planted")")" "$(only_of "$compared" "$in_manual")") ;;
        manual) said=$(differing "$in_help" "$(only_of "$compared" "$(lists_of_manual "$room/planted")")") ;;
        readme) said=$(differing "$(lists_of_readme "$room/planted")" "$(only_of 'command|status' "$in_manual")") ;;
        completion) said=$(differing "$words" "$(lists_of_completion "$room/planted")") ;;
    esac
    is "planted: another $what in $page" "$(tr ,+ '\n ' <<<"$told")" "$said"
done <<'END_OF_PLANTS'
command manual .It+Cm+verify .It+Cm+verifies command+verifies,command+verify
argument manual .It+Cm+trim+Ar+BYTES .It+Cm+trim+Ar+BYTE command+trim+BYTE,command+trim+BYTES
option manual .It+Fl+-items+Ar+N .It+Fl+-entries+Ar+N option+--entries+N,option+--items+N
status manual .It+129+,+130+,+143 .It+129+,+130 status+143
line manual .It+Cm+srange+Ar+H+OFFSET+COUNT .It+Cm+srange+Ar+OFFSET+COUNT line+srange+H+OFFSET+COUNT,line+srange+OFFSET+COUNT
variable manual .It+Ev+BLKCACHE_WAIT .It+Ev+BLKCACHE_WAITS variable+BLKCACHE_WAIT,variable+BLKCACHE_WAITS
command help ++session++ ++sessions++ command+session,command+sessions
option help ++--prove++ ++--proof++ option+--proof,option+--prove
status help ++70++ ++71++ status+70,status+71
line help size+H+S size+H line+size+H,line+size+H+S
variable help ++BLKCACHE_ERASE++ ++BLKCACHE_ERASES++ variable+BLKCACHE_ERASE,variable+BLKCACHE_ERASES
command readme `count` `counts` command+count,command+counts
status readme |+6+| |+9+| status+6,status+9
command completion +gen+reset +reset gen
option completion --version+ --versions+ --version,--versions
part completion +chain+ +chains+ chain,chains
END_OF_PLANTS
plant <(echo "$help") 'chain BUCKET' 'chain N'
is 'planted: another part in --help' 'chain BUCKET' "$(missing_parts "$(<"$room/planted")" "$in_manual")"

# What has a number and a name has them from the sources.
while IFS=: read -r section file first; do
    is "the manual page: ${section,}" "$(numbered_of_source "$top/crates/$file" "$first")" "$(numbered_of_manual "$section" "$manual" | sort -nu)"
done <<'END_OF_LISTS'
Refusals:blk_model/src/lib.rt:BadHandle
Faults:blk_script/src/fault.rt:Empty
Why recovery drops an entry:blk_verdict/src/reason.rt:Contents
END_OF_LISTS
plant "$manual" '.It 9 Li RangeEnd' '.It 9 Li EndOfRange'
is 'planted: another name of a refusal' $'9 EndOfRange\n9 RangeEnd' \
    "$(differing "$(numbered_of_source "$top/crates/blk_model/src/lib.rt" BadHandle)" "$(numbered_of_manual Refusals "$room/planted")")"

# The reasons are those of docs/RECOVERY.md too, and printed by their names; the refusals are those of docs/MODEL.md, but for those that are
# reserved.
recovery=$top/docs/RECOVERY.md model=$top/docs/MODEL.md printing=$top/crates/blk_inspect/src/verdict.rt
reasons=$(numbered_of_source "$top/crates/blk_verdict/src/reason.rt" Contents)
is 'there are 16 reasons' 16 "$(count_like '[0-9]* [A-Z]*' <<<"$reasons")"
is 'docs/RECOVERY.md: the reasons' "$reasons" "$(numbered_of_table "$recovery")"
plant "$recovery" '| 4 | Back |' '| 4 | Forth |'
is 'planted: another reason in docs/RECOVERY.md' $'4 Back\n4 Forth' "$(differing "$reasons" "$(numbered_of_table "$room/planted")")"
named=$(while read -r _ it; do echo "$it $it"; done <<<"$reasons")
is 'the reasons are printed by their names' "$named" "$(printed_names "$printing" Reason)"
plant "$printing" 'Reason::Hash => "Hash"' 'Reason::Hash => "Key"'
is 'planted: another printed name' $'Hash Hash\nHash Key' "$(differing "$named" "$(printed_names "$room/planted" Reason)")"
plant "$manual" '.It 16 Li Unlisted' '.It 17 Li Unlisted'
is 'planted: another number of a reason in the manual page' $'16 Unlisted\n17 Unlisted' \
    "$(differing "$reasons" "$(numbered_of_manual 'Why recovery drops an entry' "$room/planted")")"
refusals=$(numbered_of_source "$top/crates/blk_model/src/lib.rt" BadHandle | while read -r _ it; do echo "$it"; done)
is 'docs/MODEL.md: the refusals' $'Memory\nNoHandle' "$(differing "$refusals" "$(refusals_of_model "$model")")"
plant "$model" '| BadKey, Missing |' '| BadKey, Absent |'
is 'planted: another refusal in docs/MODEL.md' $'Absent\nMemory\nNoHandle' "$(differing "$refusals" "$(refusals_of_model "$room/planted")")"

# The limits are those of the definitions: of each item the numbers of its text, in their order.
limits=("$top"/crates/{blk_model/specs/Sizes,blk_args/specs/{Words,Tasks},blk_run/specs/WholeInputs,blk_run/specs/Work,blk_script/specs/{Fields,Line}}.antt)
limits+=("$top/blkcache")
is 'the manual page: limits' '' "$(wrong_limits "$manual" "${limits[@]}")"
plant "$manual" '4096 at a time.' '4095 at a time.'
is 'planted: another limit' 'LIMITS, Handles: 4095 on the page, 4096 in the sources' "$(wrong_limits "$room/planted" "${limits[@]}")"
plant "$manual" 'limit less a sixteenth of it' 'limit less an eighth of it'
is 'planted: another limit, spelled out' 'LIMITS, -: 8256 192 8 on the page, 8256 192 16 in the sources' "$(wrong_limits "$room/planted" "${limits[@]}")"
plant "${limits[0]}" 'most_items = 131072' 'most_items = 131073'
is 'planted: another limit in the sources' 'OPTIONS, --items N: 1 131072 65536 on the page, 1 131073 65536 in the sources' \
    "$(wrong_limits "$manual" "$room/planted" "${limits[@]:1}")"
is '--help: limits' '' "$(wrong_numbers "$(numbers_of_help "$help")" help "${limits[@]}")"
is 'README: limits' '' "$(wrong_numbers "$(numbers_of_readme "$readme")" readme "${limits[@]}")"

# What is planted in one of these pages: the page, what it tells wrongly, the right number and the wrong one.
while IFS=: read -r page item right wrong; do
    case $page in
        help) plant <(echo "$help") "$right" "$wrong" && said=$(numbers_of_help "$(<"$room/planted")") ;;
        readme) plant "$readme" "$right" "$wrong" && said=$(numbers_of_readme "$room/planted") ;;
    esac
    said=$(wrong_numbers "$said" "$page" "${limits[@]}")
    is "planted: another limit in $page, $item" 2 "$(count_like "$item:*" <<<"$said")"
    is "planted: another limit in $page, $item, and no more is told" 2 "$(count_like '*' <<<"$said")"
done <<'END_OF_WRONG_NUMBERS'
help:--max N:83886080:83886081
help:--items N:65536:65535
help:--wait SECONDS:999999999:99999999
help:put KEY STREAM:1048576:1048567
help:get KEY STREAM:(0 to 2):(0 to 3)
readme:`put KEY STREAM`, `get KEY STREAM`:1048576:1048567
readme:An entry has:streams, 0 to 2:streams, 0 to 3
END_OF_WRONG_NUMBERS
plant "$top/blkcache" '[1-9][0-9]{0,8}' '[1-9][0-9]{0,7}'
is 'planted: another longest wait in the script' $'--wait SECONDS: 0\n--wait SECONDS: 999999999' \
    "$(wrong_numbers "$(numbers_of_help "$help")" help "${limits[@]::${#limits[@]}-1}" "$room/planted")"

# What the script and its build say on standard error.
is 'the manual page: diagnostics' '' "$(untold_texts "$manual" "$top/blkcache" "$top/dist/build.sh")"
plant "$manual" '.It the folder cannot be locked' '.It the folder cannot be held'
is 'planted: another diagnostic' 'the folder cannot be locked' "$(untold_texts "$room/planted" "$top/blkcache" "$top/dist/build.sh")"

# The version is in one place, and the newest changes are those of that version. README names the kit of the program at hand.
newest_of() {
    local line
    while IFS= read -r line; do
        [[ $line != '## '* ]] || { echo "${line#'## '}" && return; }
    done <"$1"
}
newest=$(newest_of "$top/CHANGELOG.md")
is 'the newest changes' "$(<"$top/VERSION")" "${newest%% *}"
plant "$top/CHANGELOG.md" "## $newest" "## 99.0.0 (2026-01-02)"
is 'planted: other newest changes' '99.0.0 (2026-01-02)' "$(newest_of "$room/planted")"
kit_of() {
    local lines
    mapfile -t lines <"$1"
    echo "${lines[2]#kit }"
}
kit=$(kit_of "$top/$hand/SOURCES")
[[ $(<"$readme") == *"\`$kit\`"* ]]
is "README names the kit of the program at hand, $kit" 0 $?
plant "$readme" "$kit" "$kit of another day"
[[ $(<"$room/planted") == *"\`$kit\`"* ]]
is 'planted: another kit' 1 $?

# The manual page is rendered without a warning, by what is there.
renders() {
    if [ "$1" = mandoc ]; then
        mandoc -Tlint "$2" 2>&1 | grep_unlike '*outdated mandoc.db*'
    else
        man --warnings --encoding=UTF-8 --local-file "$2" 2>&1 >/dev/null
    fi
}
grep_unlike() {
    local line
    while IFS= read -r line; do
        # shellcheck disable=SC2053
        [[ $line == $1 ]] || echo "$line"
    done
}
plant "$manual" '.Sh LOCKING' $'.Sh LOCKING\n.Xx LOCKING'
for it in mandoc man; do
    if ! type -P "$it" >/dev/null || [ -z "$(renders "$it" "$room/planted")" ]; then
        skip "whether $it renders the manual page without a warning" "$it is missing, or tells nothing of an unknown macro"
        continue
    fi
    is "the manual page by $it" '' "$(renders "$it" "$manual")"
    is "planted: an unknown macro, by $it" yes "$([ -z "$(renders "$it" "$room/planted")" ] || echo yes)"
done
finish
