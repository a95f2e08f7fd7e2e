# What ./install and packaging/deb put into a folder runs from there, and is taken away whole.
. "$(dirname "${BASH_SOURCE[0]}")/common.sh"

# A copy of the repository without sources, with the program at hand.
repository=$room/repository
hand=$repository/dist/${BASH_VERSINFO[5]%%-*}-linux
mkdir -p "$hand" "$repository/man" "$repository/packaging"
cp "$top/blkcache" "$top/install" "$top/VERSION" "$repository"
cp "$top/man/blkcache.1" "$repository/man"
cp "$top/packaging/completion.bash" "$top/packaging/deb" "$repository/packaging"
cp "$program" "$hand/blkcache"
sum=$(sha256sum <"$program")
printf '%s\n' "crates $(printf %040d 1)" "crates.txt $(printf %040d 1)" 'kit some kit' "sha256 ${sum%% *}" >"$hand/SOURCES"

version=$(<"$top/VERSION") date='of no known commit'

# Runs what was installed on a new folder, and with the arguments that name no folder.
works() {
    local folder=$room/cache-$((number += 1)) said
    mkdir "$folder"
    said=$(printf hello | "$2" "$folder" put key 0 2>&1)
    is "$1: put" $'0 ok\nok 5\nok' "$? $said"
    said=$("$2" "$folder" get key 0 2>&1)
    is "$1: get" $'0 ok\ndata 5 68656c6c6f\nok' "$? $said"
    said=$("$2" "$folder" list 2>&1)
    is "$1: list" $'0 main key 5 0 0\nend 1' "$? $said"
    said=$("$2" --help)
    is "$1: --help" '0 usage: blkcache' "$? ${said%% [*}"
    said=$("$2" --version)
    is "$1: --version" "0 blkcache $version ($date)" "$? $said"
}
number=0
# Prints all names of files below a folder.
names_in() (
    shopt -s globstar dotglob nullglob
    cd "$1" || exit
    for it in **; do [ -d "$it" ] || echo "$it"; done
)
wanted="bin/blkcache
lib/blkcache/VERSION
lib/blkcache/blkcache
lib/blkcache/dist/${hand##*/}/SOURCES
lib/blkcache/dist/${hand##*/}/blkcache
share/bash-completion/completions/blkcache
share/man/man1/blkcache.1"

prefix="$room/a prefix"
said=$("$repository/install" "$prefix" 2>&1)
is 'it is installed' '0 ' "$? $said"
is 'these files are installed' "$wanted" "$(names_in "$prefix" | sort)"
works 'installed' "$prefix/bin/blkcache"
said=$("$repository/install" "$prefix" 2>&1)
is 'it is installed once more' '0 ' "$? $said"
is 'the files are the same' "$wanted" "$(names_in "$prefix" | sort)"
said=$("$prefix/bin/blkcache" --prove 2>&1)
is 'what is installed cannot be proved' '70 blkcache: there are no sources here to build the program from' "$? $said"
printf x | dd of="$prefix/lib/blkcache/dist/${hand##*/}/blkcache" bs=1 seek=100 conv=notrunc status=none
said=$("$prefix/bin/blkcache" "$room" count 2>&1)
is 'a changed byte of what is installed is one line' "70 blkcache: $prefix/lib/blkcache/dist/${hand##*/}/blkcache has another SHA-256 than SOURCES, and there are no sources here to build it from" "$? $said"
touch "$prefix/bin/other"
said=$("$repository/install" --uninstall "$prefix" 2>&1)
is 'it is removed' '0 ' "$? $said"
is 'and nothing else' bin/other "$(names_in "$prefix")"
said=$("$repository/install" --uninstall "$prefix" 2>&1)
is 'it is removed once more' '0 ' "$? $said"
for words in --other 'a b' '--uninstall --other'; do
    # shellcheck disable=SC2086
    said=$("$repository/install" $words 2>&1)
    is "the words $words" '2 usage: ./install [--uninstall] [PREFIX]' "$? $said"
done
mv "$hand/SOURCES" "$room/SOURCES"
said=$("$repository/install" "$room/none" 2>&1)
is 'without a program nothing is installed' "70 blkcache: $hand/SOURCES is not as dist/renew writes it no" "$? $said $([ -e "$room/none" ] && echo yes || echo no)"
mv "$room/SOURCES" "$hand/SOURCES"

# The completion gives arguments, and no name of a file where a key is.
completed() {
    (
        . "$top/packaging/completion.bash"
        COMP_WORDS=("$@")
        COMP_CWORD=$(($# - 1))
        _blkcache
        echo "${COMPREPLY[*]}"
    )
}
is 'completion: a word' 'list' "$(completed blkcache cache li)"
is 'completion: a part' 'address' "$(completed blkcache cache inspect ad)"
is 'completion: a key' '' "$(completed blkcache cache get '')"
is 'completion: alone' '--prove --program' "$(completed ./blkcache --pro | tr ' ' '\n' | sort -r | tr '\n' ' ' | head -c 17)"

if ! type -P dpkg-deb >/dev/null; then
    skip 'the Debian package' 'dpkg-deb is missing'
    finish
fi
package=$("$repository/packaging/deb" "$room" 2>&1)
is 'the package is made' 0 $?
# What is made of a version that is not out has its date, and is older than that version.
debian=${version/-/'~'}
is 'the name of the package' "blkcache_${debian}_amd64.deb" "${package##*/}"
is 'the version of the package' "$debian" "$(dpkg-deb --field "$package" Version)"
for it in '1.2.0-dev (2026-01-02)' '1.2.0 (2026-01-02)'; do
    echo "$it" >"$repository/VERSION"
    said=$("$repository/packaging/deb" "$room" 2>&1)
    echo "${said##*/}"
done >"$room/named"
is 'the versions of packages' $'blkcache_1.2.0~dev.20260102_amd64.deb\nblkcache_1.2.0_amd64.deb' "$(cat "$room/named")"
echo "$version" >"$repository/VERSION"
dpkg-deb --extract "$package" "$room/extracted"
is 'what is in it' "$wanted" "$(names_in "$room/extracted/usr" | sort)"
works 'extracted' "$room/extracted/usr/bin/blkcache"
if [ "$(id -u)" != 0 ] || ! type -P dpkg >/dev/null; then
    skip 'the package is installed' 'this is not root, or dpkg is missing'
    finish
fi
mkdir -p "$room/root/var/lib/dpkg/"{info,updates}
: >"$room/root/var/lib/dpkg/status"
if ! dpkg --root="$room/root" --force-not-root,depends,bad-path --log=/dev/null --install "$package" >"$room/said" 2>&1; then
    is 'dpkg installs it' '' "$(cat "$room/said")"
    finish
fi
is 'what dpkg installs' "$wanted" "$(names_in "$room/root/usr" | sort)"
works 'installed by dpkg' "$room/root/usr/bin/blkcache"
dpkg --root="$room/root" --force-not-root,depends,bad-path --log=/dev/null --purge blkcache >"$room/said" 2>&1
is 'dpkg removes it' 0 $?
is 'and nothing is left' '' "$(names_in "$room/root/usr" 2>/dev/null)"
finish
