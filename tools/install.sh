#!/bin/sh
# Installs what stands beside it, or takes off what it has installed. Needs no kit, compiler or make.
#
# usage: ./install.sh [PREFIX [DESTDIR]]
#        ./install.sh --uninstall [PREFIX [DESTDIR]]
#
# PREFIX is /usr/local if left out; DESTDIR is put before it, for packages. The files are held against their checksums first.
# What is installed is listed in PREFIX/lib/ibsm/installed, and the folders that were made for it in PREFIX/lib/ibsm/made:
# these are taken off too, where nothing else is left in them. The exit status is 0 where it is done, else 1.
set -eu

here=$(dirname -- "$(realpath -- "$0")")
is_taken_off=
case ${1-} in
-h | --help)
    sed -n 's/^# \{0,1\}//;2,/^$/p' "$0"
    exit 0
    ;;
--uninstall)
    is_taken_off=yes
    shift
    ;;
esac
prefix=${1-/usr/local}
root=${2-}$prefix
list=$root/lib/ibsm/installed
made=$root/lib/ibsm/made

# Makes a folder below the root, and those above it that are not there, and prints them; the root is `.`.
make_folder() {
    [ ! -d "$root/$1" ] || return 0
    if [ "$1" = . ]; then mkdir -- "$root"; else make_folder "$(dirname -- "$1")" && mkdir -- "$root/$1"; fi
    echo "$1"
}

if [ "$is_taken_off" ]; then
    [ -f "$list" ] || {
        echo "install.sh: $list is not there: nothing of ibsm is installed in $root" >&2
        exit 1
    }
    while read -r name; do rm -f -- "$root/$name"; done <"$list"
    # The deepest ones first. A version that listed none made these.
    folders=$(
        [ ! -f "$made" ] || cat -- "$made"
        printf '%s\n' lib/ibsm/lib lib/ibsm share/doc/ibsm
    )
    # Compiled Python modules, and those of an older version.
    rm -rf -- "$list" "$made" "$root/lib/ibsm/lib/__pycache__" "$root/lib/ibsm/__pycache__"
    echo "$folders" | LC_ALL=C sort -ru | while read -r name; do rmdir -- "$root/${name#.}" 2>/dev/null || :; done
    echo "ibsm is taken off $root"
    exit 0
fi

(cd "$here" && sha256sum --check --quiet SHA256SUMS) || {
    echo 'install.sh: files are otherwise than their checksums' >&2
    exit 1
}
mkdir -p -- "$(dirname -- "$root")"
# The list of folders stands in one of them.
folders=$(make_folder lib/ibsm)
[ -z "$folders" ] || echo "$folders" >>"$made"
(cd "$here/tree" && find . ! -type d | LC_ALL=C sort | sed 's|^\./||') >"$list.new"
while read -r name; do
    make_folder "$(dirname -- "$name")" >>"$made"
    rm -f -- "$root/$name"
    cp -P --preserve=mode -- "$here/tree/$name" "$root/$name"
done <"$list.new"
for unit in "$here"/tree/lib/systemd/system/*.service; do
    sed "s|/usr/local/|$prefix/|g" "$unit" >"$root/lib/systemd/system/${unit##*/}"
done
# Files of an older version that this one does not have.
if [ -f "$list" ]; then
    while read -r name; do grep -qxF -- "$name" "$list.new" || rm -f -- "$root/$name"; done <"$list"
fi
mv -- "$list.new" "$list"
echo "ibsm is installed in $root"
