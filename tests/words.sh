# Words that are outside the grammar, those that aren't UTF-8 among them, print usage, and no folder is touched.
. "$(dirname "${BASH_SOURCE[0]}")/common.sh"

# The program refuses the arguments, and leaves all in the room as it is.
refused() {
    local before
    before=$(both "$room/here")
    run "${@:2}"
    is "$1: the status" 2 "$status"
    is "$1: the output" usage "$said"
    is "$1: the errors" '' "$complained"
    is "$1: the folder" "$before" "$(both "$room/here")"
}

# Bytes that are no UTF-8: a lone byte, a cut character, one that is too long, half of a pair, and one past the last.
bad=($'\xff' $'a\xe4b' $'\xe2\x82' $'\xc0\xaf' $'\xed\xa0\x80' $'\xf4\x90\x80\x80')
folder=$room/here
mkdir "$folder"
refused 'no word'
refused 'a folder alone' "$folder"
refused 'another word' "$folder" counts
refused 'an upper-case word' "$folder" COUNT
refused 'an empty word' "$folder" ''
refused 'a word too many' "$folder" count count
refused 'a word behind verify' "$folder" verify verify
for it in "${bad[@]}"; do
    refused "the word $(printf %q "$it")" "$folder" "$it"
    refused "count and $(printf %q "$it")" "$folder" count "$it"
    refused "the folder $(printf %q "$it")" "$it" count
    mkdir "$folder/$it"
    refused "the folder $(printf %q "$it"), which is there" "$folder/$it" count
    rmdir "$folder/$it"
done
run "$folder" $'\xf0\x9f\x98\x80'
is 'a word that is UTF-8 is no other case' '2 usage' "$status $said"

# A folder whose name is UTF-8 beyond ASCII is one like any other, and so is one with blanks and line ends.
for name in $'gr\xc3\xb6\xc3\x9fe' ' a b ' $'two\nlines' '-x' '--help'; do
    mkdir "$room/$name"
    count_in "$room/$name"
    is "the folder $(printf %q "$name")" "0 $empty_line" "$status $said"
    is "the folder $(printf %q "$name") has its index" 262512 "$(stat -c %s "$room/$name/index")"
done
(cd "$room" && timeout 60 "$program" -x count >said 2>&1)
is 'a folder whose path begins with -' "0 $empty_line" "$? $(cat "$room/said")"

# Names in the folder that aren't UTF-8 belong to no cache file.
printf x >"$folder/"$'data_\xff'
printf x >"$folder/"$'index\xff'
count_in "$folder"
is 'names that are no text are not seen' "0 $empty_line" "$status $said"
is 'and stay' xx "$(cat "$folder/"$'data_\xff' "$folder/"$'index\xff')"
finish
