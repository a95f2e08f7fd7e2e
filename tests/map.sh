# The page that has the picture of the crates: it is what docs/crates draws of crates.txt, and the page's table has a row for each crate, in
# the order of crates.txt. Other pictures and tables are shown to be refused.
. "$(dirname "${BASH_SOURCE[0]}")/common.sh"

for it in awk python3; do
    type -P "$it" >/dev/null || {
        skip 'whether the crates are drawn as crates.txt says' "$it is missing"
        finish
    }
done

page=$(awk '$0 == "<!-- crates -->" { print FILENAME }' "$top"/docs/*.md)

# Prints the lines of a page between two lines, without these: between FIRST LAST [PAGE]
between() {
    awk -v first="$1" -v last="$2" '$0 == last { inside = 0 } inside { print } $0 == first { inside = 1 }' "${3-$page}"
}

"$top/docs/crates" --print >"$room/drawn" 2>"$room/complained"
is 'docs/crates draws the crates' '0 ' "$? $(cat "$room/complained")"
between '<!-- crates -->' '<!-- end of crates -->' >"$room/picture"
are_same "$room/drawn" "$room/picture"
is "${page##*/} has that picture, else docs/crates draws it" 0 "$?"

# Prints the names of the table's rows: rows_of PAGE
rows_of() {
    between '| Crate | What it has |' '' "$1" | awk -F'`' '/^\| `/ { print $2 }'
}
names=$(awk '/^[^#]/ { sub(/[ :].*/, ""); print }' "$top/crates.txt")
is 'each crate has a row of what it has, in the order of crates.txt' "$names" "$(rows_of "$page")"

# Turns the page into one with an error, whose picture or table is refused: refused WHAT TURNING PART, where TURNING is of awk.
refused() {
    local said='is taken'
    awk "$2" "$page" >"$room/turned"
    case $3 in
        picture)
            between '<!-- crates -->' '<!-- end of crates -->' "$room/turned" >"$room/picture"
            are_same "$room/drawn" "$room/picture" || said='is refused'
            ;;
        table) [ "$(rows_of "$room/turned")" = "$names" ] || said='is refused' ;;
    esac
    is "$3: $1" 'is refused' "$said"
}
refused 'two rows changed places' '/^\|   blk_run / { kept = $0; next } { print } /^\|   blk_args / { print kept }' picture
refused 'a row is gone' '!/^\|   blk_args /' picture
refused 'two rows changed places' '/^\| `blk_gen` / { kept = $0; next } { print } /^\| `blk_inspect` / { print kept }' table
refused 'a row is gone' '!/^\| `blk_gen` /' table
refused 'a row stands twice' '{ print } /^\| `blk_gen` /' table
finish
