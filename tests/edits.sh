# The wrong edits: the pages have their numbers, and each of those beside the crates still names text of its crate, once, so that
# tests/edits can try it. Another number in a page is shown to be refused.
. "$(dirname "${BASH_SOURCE[0]}")/common.sh"

# Prints what the pages have to say of a folder of crates and edits: how many edits are in the gate and how many beside it, of how many
# crates those in the gate are, and how many crates are no tests.
counted_in() (
    shopt -s nullglob
    cd "$1" || exit
    gate=(crates/*/must-fail/*.edit)
    beside=(edits/*/*.edit)
    owners=$(printf '%s\n' "${gate[@]%/must-fail/*}" | sort -u | wc -l)
    echo "${#gate[@]} in the gate, ${#beside[@]} beside it"
    echo "${#gate[@]} of the wrong edits, of $owners crates"
    echo "$(($(count_like '[a-z]*:*' <crates.txt) - $(count_like 'test_*:*' <crates.txt))) crates: the program and its laws"
)

# Prints what the pages on the input say of it.
told_by() {
    local text form
    text=$(cat)
    for form in '[0-9]+ in the gate, [0-9]+ beside it' '[0-9]+ of the wrong edits, of [0-9]+ crates' \
        '[0-9]+ crates: the program and its laws'; do
        [[ ! $text =~ $form ]] || echo "${BASH_REMATCH[0]}"
    done
}

# Three edits in the gate, of two crates, and one beside it; four crates, of which one is of tests.
mkdir -p "$room"/counted/{crates/{one,two,three}/must-fail,edits/three}
touch "$room"/counted/{crates/{one/must-fail/{a,b},two/must-fail/a},edits/three/a}.edit
printf '%s\n' '# Two layers: the first' one: 'two: one' 'three: one two' '# Tests' 'test_one staticlib: one' >"$room/counted/crates.txt"
is 'edits and crates are counted' \
    $'3 in the gate, 1 beside it\n3 of the wrong edits, of 2 crates\n3 crates: the program and its laws' "$(counted_in "$room/counted")"

counted=$(counted_in "$top")
pages=$(cat "$top"/docs/{TESTING,DECISIONS}.md)
is 'the pages: how many edits and crates there are' "$counted" "$(told_by <<<"$pages")"
while IFS= read -r line; do
    for word in $line; do
        [[ $word != *[!0-9]* ]] || continue
        wrong=${line/"$word"/"$((word + 1))"}
        said=$(told_by <<<"${pages/"$line"/"$wrong"}")
        is "planted: $wrong" "${counted/"$line"/"$wrong"}" "$said"
        [ "$said" != "$counted" ]
        is "planted: $wrong, is not what is counted" 0 $?
    done
done <<<"$counted"

type -P awk >/dev/null || {
    skip 'whether each edit still names text of its crate' 'awk is missing'
    finish
}

# Prints why an edit of a crate can't be applied, and nothing where it can.
hindrance() (
    cd "$top/crates/$1" || exit
    awk '
        function whole(path,   line, text) {
            while ((getline line <path) > 0) text = text line "\n"
            return text
        }
        function say(what) { print FILENAME ": " what }
        function apply(   at, rest) {
            if (path == "" || old == "") { say("a pair has no file or no old text"); return }
            if (!(path in texts)) texts[path] = whole(path)
            at = index(texts[path], old)
            rest = substr(texts[path], at + length(old))
            if (at == 0 || index(rest, old)) { say("not once in " path ": " old); return }
            texts[path] = substr(texts[path], 1, at - 1) new rest
            pairs++
        }
        /^file: / { path = substr($0, 7) }
        /^old: / { old = substr($0, 6) }
        /^new:/ { new = substr($0, 5); sub(/^ /, "", new); apply(); old = "" }
        END { if (!pairs) say("it has no pair") }' "$2"
)

for folder in "$top"/edits/*/ "$top"/crates/*/must-fail/; do
    name=${folder#"$top"/*/}
    name=${name%%/*}
    said=
    for edit in "$folder"*.edit; do
        said+=$(hindrance "$name" "$edit")
    done
    is "the edits of ${folder#"$top"/} apply to $name" '' "$said"
done
is 'each crate with edits is listed' "$(cd "$top/edits" && printf '%s\n' *)" "$("$BASH" "$top/tests/edits")"
finish
