# Only regular files are cache files: any other kind under the name of one fails the folder, before any step.
. "$(dirname "${BASH_SOURCE[0]}")/common.sh"

# Makes a file of a kind at a path, or fails where the machine can't.
elsewhere=$room/elsewhere
put() {
    case $1 in
        link) ln -s "$elsewhere/file" "$2" ;;
        'link to nothing') ln -s "$elsewhere/nothing" "$2" ;;
        'link to a directory') ln -s "$elsewhere" "$2" ;;
        'link to itself') ln -s "${2##*/}" "$2" ;;
        directory) mkdir "$2" ;;
        FIFO) mkfifo "$2" ;;
        device) mknod "$2" c 1 3 2>/dev/null ;;
        'block device') mknod "$2" b 7 250 2>/dev/null ;;
        socket) [ -n "$socket" ] && cp -a "$socket" "$2" 2>/dev/null ;;
    esac
}
kinds_of_files=(link 'link to nothing' 'link to a directory' 'link to itself' directory FIFO device 'block device' socket)

# A socket can only be copied, so one is looked for.
socket=
shopt -s nullglob
for it in /run/* /run/*/* /tmp/* /tmp/*/* /dev/log; do
    [ ! -S "$it" ] || socket=$it
done

# The program fails the folder, and changes and opens nothing.
fails() {
    local before
    before=$(both "$2" && both "$elsewhere")
    count_in "$2"
    is "$1: the status" 3 "$status"
    is "$1: nothing is said" '' "$said$complained"
    is "$1: nothing is changed" "$before" "$(both "$2" && both "$elsewhere")"
}

for kind in "${kinds_of_files[@]}"; do
    rm -rf "$elsewhere" "$room/try"
    mkdir "$elsewhere" "$room/try"
    cp "$room/made/index" "$elsewhere/file"
    if ! put "$kind" "$room/try/it"; then
        skip "a $kind under a cache file's name" 'none can be made here'
        continue
    fi
    for name in index data_0 data_1 data_2 data_3 data_255 f_000001 f_fffffff; do
        for folder in empty finished; do
            make "$folder" "$room/$folder"
            rm -f "$room/$folder/$name"
            put "$kind" "$room/$folder/$name"
            fails "a $kind as $name, on a folder that is $folder" "$room/$folder"
            rm -r "$room/${folder:?}"
        done
    done
done

# A link to a cache file of the same folder is one too, and so is a second name of a file.
make finished "$room/inside"
ln -s data_0 "$room/inside/data_4"
fails 'a link to a file of the folder' "$room/inside"
rm "$room/inside/data_4"
ln "$room/inside/data_0" "$room/inside/other"
fails 'a second name of a file' "$room/inside"
rm "$room/inside/other"
count_in "$room/inside"
is 'a file whose second name is gone' "0 $empty_line" "$status $said"

# Names that are no cache file's are not looked at, whatever they belong to.
make finished "$room/others"
ln -s nothing "$room/others/data_00"
ln -s nothing "$room/others/Index"
mkdir "$room/others/f_1"
mkfifo "$room/others/data_256"
mkfifo "$room/others/f_000000"
before=$(held "$room/others")
count_in "$room/others"
is 'other names' "0 $empty_line" "$status $said"
is 'other names stay' "$before" "$(held "$room/others")"

# The folder itself may be named through a link.
make finished "$room/real"
ln -s real "$room/named"
count_in "$room/named"
is 'a link to a folder' "0 $empty_line" "$status $said"
finish
