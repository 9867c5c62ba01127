#!/usr/bin/env bash
# dist.sh [PROGRAM [FOLDER]]: writes pramc-VERSION-x86_64-linux.tar.xz, where dpkg-deb is there pramc_VERSION_amd64.deb, and where python3
# is there the wheel pramc-VERSION-py3-none-manylinux_GLIBC_x86_64.whl, to FOLDER (bin/dist). The first two have the program, its man page,
# its completions, the syntax for editors, the examples, the documents and the licence; the wheel has the program and the package for
# Python. Of one program and one state of the documents they are the same bytes: all times are those of the version's day in CHANGELOG.md,
# or SOURCE_DATE_EPOCH.
set -eu -o pipefail
top=$(cd "$(dirname "$0")/.." && pwd)
program=$(realpath "${1:-$top/bin/pramc}")
folder=${2:-$top/bin/dist}
version=$("$program" --version | sed -n 's/^pramc //p')
day=$(sed -n "s/^## $version, //p" "$top/CHANGELOG.md")
[ "$day" ] || { echo "CHANGELOG.md has no version $version"; exit 1; }
export SOURCE_DATE_EPOCH=${SOURCE_DATE_EPOCH:-$(date -ud "$day" +%s)}
work=$(mktemp -d)
trap 'rm -rf "$work"' EXIT
umask 022

# installed FOLDER PREFIX: what `make install` puts below PREFIX, in a folder.
installed() {
    make -s -C "$top" install PROGRAM="$program" DESTDIR="$1" PREFIX="$2"
}

# documents FOLDER: the documents and the examples, where they find each other.
documents() {
    mkdir -p "$1"
    cp "$top/README.md" "$top/CHANGELOG.md" "$1/"
    cp -r "$top/docs" "$top/examples" "$1/"
    install -D "$top/python/README.md" "$1/python/README.md"
    chmod -R u=rwX,go=rX "$1"
}

# The C library that the program needs: the newest version among those of the functions that it takes from there.
oldest_glibc() {
    objdump -T "$program" | grep -o 'GLIBC_[0-9.]*' | sed 's/GLIBC_//' | sort -Vu | tail -n 1
}

# What else it needs would have to stand in the package.
only_the_c_library() {
    local others
    others=$(objdump -p "$program" | sed -n 's/^ *NEEDED *//p' | grep -Ev '^(lib(c|m|pthread|dl)|ld-linux-x86-64)\.so\.[0-9]+$' || true)
    [ -z "$others" ] || { echo "the program needs more than the C library: $others"; exit 1; }
}

archive() {
    local name=pramc-$version-x86_64-linux same=(--sort=name --mtime="@$SOURCE_DATE_EPOCH" --owner=0 --group=0 --numeric-owner)
    installed "$work" "/$name"
    documents "$work/$name"
    cp "$top/LICENSE" "$work/$name/"
    tar -C "$work" "${same[@]}" -cf - "$name" | xz -9e > "$folder/$name.tar.xz"
    echo "$folder/$name.tar.xz"
}

control() {
    cat << END
Package: pramc
Version: $version
Architecture: amd64
Maintainer: Zirqumay maintainers
Section: devel
Priority: optional
Depends: libc6 (>= $1)
Installed-Size: $(du -sk --apparent-size "$work/package/usr" | cut -f 1)
Description: compiler and machine for programs of a parallel random access machine
 pramc compiles programs in the work-time notation for a parallel random
 access machine (PRAM) to superstep code, runs that on worker threads which
 exchange messages at a barrier, and gives what the program prints, its final
 memory, or the fault at its exact line and place.
END
}

package() {
    local root=$work/package file=$folder/pramc_${version}_amd64.deb
    installed "$root" /usr
    documents "$root/usr/share/doc/pramc"
    cp "$top/LICENSE" "$root/usr/share/doc/pramc/copyright"
    gzip -9n "$root/usr/share/man/man1/pramc.1"
    mkdir "$root/DEBIAN"
    control "$1" > "$root/DEBIAN/control"
    (cd "$root" && find usr -type f -print0 | sort -z | xargs -0 md5sum) > "$root/DEBIAN/md5sums"
    dpkg-deb -Zgzip --build --root-owner-group "$root" "$file" > /dev/null
    echo "$file"
}

mkdir -p "$folder"
folder=$(realpath "$folder")
only_the_c_library
glibc=$(oldest_glibc)
archive
if command -v dpkg-deb > /dev/null; then
    package "$glibc"
else
    echo "no package for Debian: dpkg-deb is not there"
fi
if command -v python3 > /dev/null; then
    python3 "$top/gate/wheel.py" "$program" "$folder" "$glibc"
else
    echo "no wheel: python3 is not there"
fi
echo "pramc $version runs with glibc $glibc and later"
