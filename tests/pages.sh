# The pages say nothing that isn't there. Refused in README.md, CONTRIBUTING.md, CHANGELOG.md and docs/*.md: a link that leads nowhere, a path
# that no file has, a code word that names nothing, also in a fence or in the manual page, one that isn't in the file in which it is said to be
# (of a name without its crate: in no file of that name), and a label that the call of which it is said doesn't have; a place that is left to
# fill; a line of a definition that no definition has; a crate that the picture or the table of docs/ARCHITECTURE.md lacks; a script of
# tests/run that the table of docs/TESTING.md lacks; and pages of docs/reference that aren't what docs/make-reference makes of the sources.
# Each kind is shown to be refused. It needs awk, find, grep, sed and xargs.
. "$(dirname "${BASH_SOURCE[0]}")/common.sh"

# Code words that name nothing of the repository: calls, flags, signals, errors and programs of the system, and units.
allowed='taskset statx pread pwrite fchmod chdir nanosleep unlink getdents64 fcntl fsync fdatasync clock_gettime O_NONBLOCK ENOSYS EOPNOTSUPP ENOLCK GiB'

for it in awk find grep sed xargs; do
    if ! command -v "$it" >/dev/null; then
        skip pages "there is no $it"
        finish
    fi
done
cd "$top" || exit

# Prints the names there are: what is outside of comments in sources, definitions and scripts, what proofs declare, and each file's name
# with and without its ending.
print_names() {
    find crates \( -name '*.rt' -o -name '*.antt' \) -not -path '*/out/*' -print0 | xargs -0 awk '
        FILENAME ~ /\/proofs\// { if (match($0, /^ *(pub )?[A-Za-z0-9_\047-]+ :/)) { sub(/^ *(pub )?/, ""); sub(/ :.*/, ""); print } next }
        FILENAME ~ /rt$/ { sub(/\/\/.*/, "") }
        FILENAME ~ /antt$/ { sub(/-- .*/, "") }
        { n = split($0, a, /[^A-Za-z0-9_\047-]+/); for (i = 1; i <= n; i++) if (!(a[i] in seen)) { seen[a[i]]; print a[i] } }'
    awk -F/ '{ print $NF; if (sub(/\.[a-z]+$/, "", $NF)) print $NF }' "$room/files"
    find tests bench dist packaging .ci blkcache install crates.txt -maxdepth 1 -type f ! -name pages.sh -print0 | xargs -0 awk '
        /^ *#/ { next }
        { n = split($0, a, /[^A-Za-z0-9_\047-]+/); for (i = 1; i <= n; i++) if (!(a[i] in seen)) { seen[a[i]]; print a[i] } }'
    printf '%s\n' $allowed
}

# Prints what is wrong with pages of a folder, a line each: look_at FOLDER PAGE.. In fences those words are looked at that only code has.
look_at() (
    cd "$1" || exit
    shift
    : >"$room/pairs"
    awk -v names="$room/names" -v files="$room/files" -v anchors="$room/anchors" -v labels="$room/labels" -v pairs="$room/pairs" '
        function load(list, into,   line) { while ((getline line < list) > 0) { sub(/^-+/, "", line); into[line] } }
        function say(what) { print FILENAME ":" FNR ": " what }
        # A page of a link, from the folder of the page that has it on.
        function joined(path,   at) {
            at = FILENAME ~ /\// ? FILENAME : ""
            sub(/[^\/]*$/, "", at)
            path = at path
            while (sub(/(^|\/)\.\//, "/", path) || sub(/[^\/.]+\/\.\.\//, "", path));
            sub(/\/$/, "", path)
            return path
        }
        # A path names a file from the top, the folders crates and docs, the page or a crate on. NAME, CRATE, FILE and * match anything; what is built
        # into out/ may be there or not.
        function leads(path,   form, file) {
            sub(/^\.\//, "", path); sub(/\/$/, "", path)
            if (path ~ /^out(\/|$)/) return 1
            if (path in file_at || ("crates/" path) in file_at || ("docs/" path) in file_at || joined(path) in file_at) return 1
            if (path ~ /NAME|CRATE|FILE|\*/) { gsub(/NAME|CRATE|FILE/, "*", path); gsub(/\./, "\\.", path); gsub(/\*/, "[^/]*", path) }
            form = "(^|/)" path "([.][a-z]+)?$"
            for (file in file_at) if (file ~ form) return 1
            return 0
        }
        function is_name(word,   parts, n, i) {
            if (word in known) return 1
            n = split(word, parts, "-")
            for (i = 1; i <= n; i++) if (parts[i] != "" && parts[i] !~ /^[0-9]/ && !(parts[i] in known)) return 0
            return n > 1
        }
        # Numbers, hexadecimal ones too, and words in capitals, which are placeholders, name nothing.
        function is_wrong(word) {
            sub(/^[\047-]+/, "", word); sub(/[\047-]+$/, "", word)
            if (length(word) < 2 || word ~ /^[0-9]/ || word ~ /^[A-Z][A-Z0-9]*$/ || word ~ /^[0-9a-f]+$/ || word ~ /^[a-z]+_[NXx0-9a-f]*$/) return 0
            return !is_name(word)
        }
        # Of several words those are looked at that only code has.
        function look(span,   words, n, i, one) {
            one = span !~ / /
            if (span ~ /^\//) return
            if (one && span ~ /^[A-Za-z0-9_.*-]+\/[A-Za-z0-9_.\/*-]*$/) { if (!leads(span)) say("no file " span); return }
            n = split(span, words, /[^A-Za-z0-9_\047-]+/)
            for (i = 1; i <= n; i++) if ((one || words[i] ~ /[a-z0-9]_[a-z0-9]|[a-z][A-Z]/) && is_wrong(words[i])) say("no " words[i])
        }
        # Words in a file that is named by its crate: the file has them, as the place from which they are told. One that is named without its crate
        # means all of that name, as a file of definitions without its ending.
        function find(text,   spans, n, i, file) {
            n = split(text, spans, "`")
            file = spans[n - 1]
            if (file ~ /\//) { file = "crates/" file; if (!(file in file_at)) return }
            else if (file ~ /\./) file = "*/" file
            else if ((file ".antt") in defining) file = "*/" file ".antt"
            else return
            for (i = 2; i < n - 1; i += 2) { sub(/.*::/, "", spans[i]); print FILENAME ":" FNR "\t" spans[i] "\t" file > pairs }
        }
        # Labels of calls: of those calls that the reference has, some one has the label.
        function ask(text,   sides, given, calls, n, m, i, j, asked, had) {
            split(text, sides, " of ")
            n = split(sides[1], given, "`"); m = split(sides[2], calls, "`")
            for (i = 2; i < n; i += 2) {
                if (given[i] !~ /^[a-z_]+$/) return
                asked = had = 0
                for (j = 2; j < m; j += 2) {
                    if ((calls[j] " later") in label_at) asked = 1
                    if ((calls[j] " " given[i]) in label_at) had = 1
                }
                if (asked && !had) say("no label " given[i] " of " calls[2])
            }
        }
        function follow(link,   page, anchor) {
            if (link ~ /:\/\//) return
            page = link; sub(/#.*/, "", page); anchor = link; if (!sub(/^[^#]*#/, "", anchor)) anchor = ""
            page = page == "" ? FILENAME : joined(page)
            if (!(page in file_at)) say("no file " link)
            else if (anchor != "" && !((page "#" anchor) in anchor_at)) say("no heading " link)
        }
        BEGIN {
            load(names, known); load(files, file_at); load(anchors, anchor_at); load(labels, label_at)
            for (file in file_at) if (file ~ /\/specs\//) { sub(/.*\//, "", file); defining[file] }
        }
        FNR == 1 { fenced = 0 }
        /^ *```/ { fenced = !fenced; next }
        fenced { look($0 " "); next }
        {
            for (rest = $0; match(rest, /`[^`]+`/); rest = substr(rest, RSTART + RLENGTH)) look(substr(rest, RSTART + 1, RLENGTH - 2))
            for (rest = $0; match(rest, /(`[^` ]+`(, | and )?)+ in `([A-Za-z0-9_\/]+\.(rt|antt)|[A-Z][A-Za-z]+)`/); rest = substr(rest, RSTART + RLENGTH)) find(substr(rest, RSTART, RLENGTH))
            for (rest = $0; match(rest, /(`[^` ]+`(, | and )?)+ of `[A-Za-z_:]+`((, | and )`[A-Za-z_:]+`)*/); rest = substr(rest, RSTART + RLENGTH)) ask(substr(rest, RSTART, RLENGTH))
            for (rest = $0; match(rest, /\]\([^) ]+\)/); rest = substr(rest, RSTART + RLENGTH)) follow(substr(rest, RSTART + 2, RLENGTH - 3))
            rest = $0
            gsub(/`[^`]*`|\]\([^)]*\)/, " ", rest)
            n = split(rest, words, /[ ,;:()"]+/)
            for (i = 1; i <= n; i++)
                if (words[i] ~ /^(docs|tests|crates|edits|bench|man|packaging|dist)\/[A-Za-z0-9_.\/*-]+$/) {
                    sub(/\.$/, "", words[i])
                    if (!leads(words[i])) say("no file " words[i])
                }
        }' "$@"
    while IFS=$'\t' read -r at word file; do
        case $file in
            '*/'*) grep -qwsF -- "$word" "$top"/crates/*/src/"${file#*/}" "$top"/crates/*/specs/"${file#*/}" || echo "$at: no $word in ${file#*/}" ;;
            *) grep -qwF -- "$word" "$top/$file" || echo "$at: no $word in $file" ;;
        esac
    done <"$room/pairs"
)

# Prints the calls and laws of the reference, each with each of its labels, with those that the reference leaves out, and without its type too.
print_labels() {
    awk '
        function put(name) { print name " " label; if (sub(/.*::/, "", name)) print name " " label }
        /^- `/ {
            name = substr($0, 4); sub(/[`(<].*/, "", name)
            text = match($0, /\*[^*]*\*$/) ? substr($0, RSTART, RLENGTH) : ""
            n = split("later device sink_later later_out printed_later untold silent " text, all, /[^a-z_]+/)
            for (i = 1; i <= n; i++) if (all[i] != "") { label = all[i]; put(name) }
        }' docs/reference/*.md
}

# Prints the places of pages that are left to fill: look_open FOLDER PAGE..
look_open() (
    cd "$1" || exit
    shift
    grep -nwE '[A-Z]+_MINUTES|TODO' "$@"
)

# Prints which crates of crates.txt have no place in the picture, between two marker lines, and which have no row in a table: look_for FOLDER
look_for() {
    awk '
        FILENAME ~ /ARCHITECTURE/ && /^<!-- crates -->$/ { drawn = 1 }
        FILENAME ~ /ARCHITECTURE/ && /^<!-- end of crates -->$/ { drawn = 0 }
        FILENAME ~ /ARCHITECTURE/ {
            if (drawn) { n = split($0, a, /[^A-Za-z0-9_]+/); for (i = 1; i <= n; i++) in_picture[a[i]] }
            if (match($0, /^\| `[a-z0-9_]+` \|/)) in_table[substr($0, 4, RLENGTH - 6)]
            next
        }
        /^#/ || !/:/ { next }
        {
            sub(/:.*/, ""); sub(/ .*/, "")
            if ($0 !~ /_tests$|(^|_)test_/ && !($0 in in_picture)) print "no " $0 " in the picture"
            if (!($0 in in_table)) print "no " $0 " in the table"
        }' "$1/docs/ARCHITECTURE.md" "$1/crates.txt"
}

# Prints which lines of records in the fences of a page, each up to '..', no definition has: look_for_lines PAGE
look_for_lines() {
    local line
    awk '/^ *```/ { fenced = !fenced } fenced && /^ *pub / { sub(/ *\.\..*/, ""); print }' "$1" | while IFS= read -r line; do
        grep -qF -- "$line" "$room/definitions" || echo "no line $line"
    done
}

# Prints which scripts of tests/run have no row in the table of docs/TESTING.md: look_for_scripts FOLDER
look_for_scripts() {
    awk -F'|' '
        FILENAME ~ /TESTING/ {
            if ($0 == "| Script | What it tries |") inside = 1
            if ($0 !~ /^\|/) inside = 0
            if (inside) { n = split($2, a, /[^a-z_]+/); for (i = 1; i <= n; i++) has_row[a[i]] }
            next
        }
        sub(/^scripts=\(/, "") { sub(/\).*/, ""); n = split($0, a, " "); for (i = 1; i <= n; i++) if (!(a[i] in has_row)) print "no row of " a[i] }
    ' "$1/docs/TESTING.md" "$1/tests/run"
}

# Prints what is wrong with the code words of a manual page, which is looked at as if it were one fence: look_at_manual PAGE
look_at_manual() {
    mkdir -p "$room/manual"
    { echo '```' && cat "$1"; } >"$room/manual/page"
    look_at "$room/manual" page
}

find . \( -name .git -o -name out \) -prune -o -print | sed 's:^\./::' >"$room/files"
print_names >"$room/names"
print_labels >"$room/labels"
find crates -path '*/specs/*.antt' -not -path '*/out/*' -print0 | xargs -0 cat >"$room/definitions"
awk '
    FNR == 1 { fenced = 0 }
    /^ *```/ { fenced = !fenced }
    !fenced && /^#+ / { sub(/^#+ +/, ""); $0 = tolower($0); gsub(/[^a-z0-9 _-]/, ""); gsub(/ /, "-"); print FILENAME "#" $0 }' \
    ./*.md docs/*.md docs/reference/*.md | sed 's:^\./::' >"$room/anchors"

look_at "$top" README.md CONTRIBUTING.md CHANGELOG.md docs/*.md >"$room/wrong"
cat "$room/wrong"
is 'the pages name what there is' 0 "$(wc -l <"$room/wrong")"
is 'no page has a place left to fill' '' "$(look_open "$top" README.md CONTRIBUTING.md CHANGELOG.md docs/*.md)"
is 'each crate has its place in docs/ARCHITECTURE.md' '' "$(look_for "$top")"
is 'each script has its row in docs/TESTING.md' '' "$(look_for_scripts "$top")"
is 'docs/GUARANTEES.md prints definitions as they are' '' "$(look_for_lines docs/GUARANTEES.md)"
is 'the manual page names what there is' '' "$(look_at_manual man/blkcache.1)"

# A page that has a line more is refused: planted WHAT LINE WANTED
planted() {
    mkdir -p "$room/copy/docs"
    printf '%s\n' "$2" >"$room/copy/docs/ARCHITECTURE.md"
    is "refused: $1" "docs/ARCHITECTURE.md:1: $3" "$(look_at "$room/copy" docs/ARCHITECTURE.md)"
}
planted 'a link to no file' 'See [here](NOWHERE.md).' 'no file NOWHERE.md'
planted 'a link to no heading' 'See [here](../README.md#no-such-heading).' 'no heading ../README.md#no-such-heading'
planted 'a link to no heading of its own' 'See [here](#no-such-heading).' 'no heading #no-such-heading'
planted 'a path of no file' 'It is told in docs/NOWHERE.md too.' 'no file docs/NOWHERE.md'
planted 'a source of no crate' 'It is in `blk_run/src/no_such.rt`.' 'no file blk_run/src/no_such.rt'
planted 'a word that names nothing' 'It calls `no_such_function`.' 'no no_such_function'
planted 'a word that names nothing, among others' 'It says `IsNoSuchThing from old`.' 'no IsNoSuchThing'
planted 'a word that another file has' 'It is `walk` in `blk_run/src/top.rt`.' 'no walk in crates/blk_run/src/top.rt'
planted 'a word that no file of that name has' 'It is `last_unpinned` in `opening.rt`.' 'no last_unpinned in opening.rt'
planted 'a word that another file of definitions has' 'It is `evicted_until` in `Sizes`.' 'no evicted_until in Sizes.antt'
planted 'a label of another call' 'The clause `mended` of `run` says so.' 'no label mended of run'
planted 'a label of another law' 'It is `rests` of `refusals_change_nothing`.' 'no label rests of refusals_change_nothing'
planted 'an option that there is not' 'Call it with `--nosuchoption`.' 'no --nosuchoption'
printf '%s\n' '```' 'ensures performs { IsNoSuchThing from old }' '```' >"$room/copy/docs/ARCHITECTURE.md"
is 'refused: a word in a fence that names nothing' 'docs/ARCHITECTURE.md:2: no IsNoSuchThing' "$(look_at "$room/copy" docs/ARCHITECTURE.md)"
sed 's/^  pub stopped : Stopped /  pub stopped : IsStopped /' docs/GUARANTEES.md >"$room/other_page"
is 'refused: a line that no definition has' 'no line   pub stopped : IsStopped result from run sink old new' "$(look_for_lines "$room/other_page")"
sed 's/^\.It 1 Li BadHandle$/.It 1 Li NoSuchHandle/' man/blkcache.1 >"$room/other_page"
is 'refused: a word of the manual page that names nothing' 'no NoSuchHandle' "$(look_at_manual "$room/other_page" | sed 's/^page:[0-9]*: //')"
for it in 'It takes FOUR_MINUTES.' 'TODO: more.'; do
    printf '%s\n' "$it" >"$room/copy/docs/ARCHITECTURE.md"
    is "refused: a place left to fill, ${it%% *}" "docs/ARCHITECTURE.md:1:$it" "$(look_open "$room/copy" docs/ARCHITECTURE.md /dev/null)"
done
cp -r docs crates.txt "$room/copy"
echo 'blk_nowhere: blk_io' >>"$room/copy/crates.txt"
is 'refused: a crate that is nowhere' $'no blk_nowhere in the picture\nno blk_nowhere in the table' "$(look_for "$room/copy" | grep blk_nowhere)"
mkdir -p "$room/copy/tests"
sed 's/^scripts=(/&nowhere /' tests/run >"$room/copy/tests/run"
sed -i '/^| `raised`, `greatest` |/d' "$room/copy/docs/TESTING.md"
is 'refused: scripts without a row' $'no row of nowhere\nno row of raised\nno row of greatest' "$(look_for_scripts "$room/copy")"

if command -v python3 >/dev/null && command -v diff >/dev/null; then
    python3 -B docs/make-reference "$room/reference"
    is 'the reference is that of the sources' '' "$(diff -r docs/reference "$room/reference")"
    sed -i '0,/^- /s/^- .*/- `gone()`: Gone./' "$room/reference/calls.md"
    is 'refused: a reference of other sources' 1 "$(diff -rq docs/reference "$room/reference" >/dev/null; echo $?)"
else
    skip 'the reference of the sources' 'python3 or diff is missing'
fi
finish
