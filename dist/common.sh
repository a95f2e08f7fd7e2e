# What dist/renew and dist/check share: where the programs are, and what SOURCES says of the one that the gate built.
set -eu
here=$(cd "$(dirname "${BASH_SOURCE[0]}")/.." && pwd)
name=${BASH_VERSINFO[5]%%-*}-linux
hand=$here/dist/$name
built=$here/crates/blkcache/out/blkcache

# Says why the script ends, and ends with 1.
refuse() {
    printf '%s\n' "$1" >&2
    exit 1
}

# Whether no source, definition or proof is newer than the program that was built.
is_newest() {
    local times first last
    times=$(cd "$here" && du -sc --time --time-style=+%s.%N -- "$built" crates.txt crates/*/{src,specs,proofs} 2>/dev/null) || :
    # The first line has the time of the program, and the last that of the newest of all, each after a size and a tab.
    first=${times#*$'\t'} last=${times##*$'\n'}
    first=${first%%$'\t'*} last=${last#*$'\t'}
    [ -n "$first" ] && [ "$first" = "${last%%$'\t'*}" ]
}

# Leaves the four lines of SOURCES: the names by which git knows the crates and their list, the kit's line, and the program's SHA-256.
describe() {
    local names kit sum changes
    [ -x "$built" ] || refuse "there is no $built: rt ci builds it"
    names=$(git -C "$here" rev-parse HEAD:crates HEAD:crates.txt) || refuse 'git knows no commit with crates and crates.txt'
    changes=$(git -C "$here" status --porcelain -- crates crates.txt)
    [ -z "$changes" ] || refuse 'crates has changes that are not committed: commit them, and have rt ci build the program'
    is_newest || refuse "a source is newer than $built: rt ci builds it"
    kit=$(rt version)
    sum=$(sha256sum <"$built")
    printf -v described 'crates %s\ncrates.txt %s\nkit %s\nsha256 %s' "${names%%$'\n'*}" "${names#*$'\n'}" "$kit" "${sum%% *}"
}
