#!/bin/sh
# Makes what is handed to those who have no kit: a tarball with the built program, its manual page, the pages for users, the demo, and the
# scripts of the front, and beside it its checksum; with --deb also a package that an ordinary Debian 12 installs. Then it unpacks the
# tarball in a fresh folder, and runs the demo out of it. The name has the version, the newest of CHANGELOG.md. If no program is given
# it is the one that demo/run.sh builds.
#
#   demo/package.sh [--deb] [--program PROGRAM] [FOLDER]        the folder to make them in; the current one if none is given
set -u
demo=$(cd "$(dirname "$0")" && pwd)
top=$(dirname "$demo")
program=$top/crates/auditor/out/auditor
deb=

fail() {
    echo "package: $*" >&2
    exit 1
}

while [ $# -gt 0 ]; do
    case $1 in
    --deb) deb=1; shift ;;
    --program) [ $# -gt 1 ] || fail "--program wants a program"; program=$2; shift 2 ;;
    -*) fail "there is no $1: package.sh [--deb] [--program PROGRAM] [FOLDER]" ;;
    *) break ;;
    esac
done
[ $# -le 1 ] || fail "one folder at most: package.sh [--deb] [--program PROGRAM] [FOLDER]"
[ -x "$program" ] && [ -f "$program" ] || fail "there is no program $program: demo/run.sh builds it"
program=$(realpath "$program")
command -v readelf >/dev/null || fail "readelf is missing, which binutils has"
[ -z "$deb" ] || command -v dpkg-deb >/dev/null || fail "dpkg-deb is missing, which dpkg has"

# Whoever gets it has a C library, and nothing else that it could stand on.
needed=$(readelf -d "$program" | sed -n 's/.*(NEEDED).*\[\(.*\)\]/\1/p')
case $needed in
'' | libc.so.6) ;;
*) fail "the program links" $needed ;;
esac

version=$(sed -n 's/^## \([0-9][0-9.]*\).*/\1/p' "$top/CHANGELOG.md" | head -n 1)
[ -n "$version" ] || fail "CHANGELOG.md names no version"
name=auditor-$version-$(uname -m)-linux
# One source gives one tarball: every file has the time of the last change of CHANGELOG.md.
SOURCE_DATE_EPOCH=${SOURCE_DATE_EPOCH:-$(git -C "$top" log -1 --format=%ct -- CHANGELOG.md 2>/dev/null)}
[ -n "$SOURCE_DATE_EPOCH" ] || SOURCE_DATE_EPOCH=$(stat -c %Y "$top/CHANGELOG.md")
export SOURCE_DATE_EPOCH

here=$(cd "${1:-.}" && pwd) || fail "there is no folder $1"
tree=$(mktemp -d) || exit 1
trap 'rm -rf "$tree"' EXIT

# Makes what stands below a prefix, as /usr/local, in a folder. The front is where the units look for it.
stage() {
    mkdir -p "$1/bin" "$1/share/man/man1" "$1/share/auditor/front" "$1/share/auditor/demo" || exit 1
    cp "$program" "$1/bin/auditor" && cp "$top/docs/auditor.1" "$1/share/man/man1/" || exit 1
    for script in prepare ask doctor; do
        ln -s "../share/auditor/front/$script.py" "$1/bin/auditor-$script" || exit 1
    done
    (cd "$top/front" && tar --exclude=tests --exclude=check.sh --exclude=__pycache__ -cf - .) | tar -xf - -C "$1/share/auditor/front" || exit 1
    # What makes the package, and what builds the program, is the source's.
    (cd "$demo" && tar --exclude=debian --exclude='package*' --exclude=build.sh --exclude=try.sh --exclude=trial.py --exclude=shares.txt --exclude=__pycache__ -cf - .) |
        tar -xf - -C "$1/share/auditor/demo" || exit 1
    python3 "$demo/package_pages.py" "$1" || exit 1
    # The modes are those that an install needs, whatever the umask is, here and where the source was fetched.
    chmod -R u=rwX,go=rX "$1" || exit 1
}

make_tarball() {
    stage "$tree/$name"
    sed "s/VERSION/$version/g; s/NAME/$name/g" "$demo/package.md" >"$tree/$name/README.md" || exit 1
    tar --sort=name --owner=0 --group=0 --numeric-owner --mtime="@$SOURCE_DATE_EPOCH" -C "$tree" -cf - "$name" | gzip -9n >"$here/$name.tar.gz" || exit 1
    (cd "$here" && sha256sum "$name.tar.gz" >"$name.tar.gz.sha256") || exit 1
}

# The Debian package has the tarball's files below /usr, and the units and maintainer scripts of demo/debian beside them.
make_deb() {
    root=$tree/deb
    stage "$root/usr"
    doc=$root/usr/share/doc/auditor
    units=$root/usr/share/auditor/front/units
    strip --strip-unneeded "$root/usr/bin/auditor" || exit 1
    sed -i 's|/usr/local/|/usr/|g' "$units"/* && mkdir -p "$root/lib/systemd/system" && cp "$units"/auditor-*.s* "$root/lib/systemd/system/" || exit 1
    gzip -9n "$root/usr/share/man/man1/auditor.1" && mv "$doc/CHANGELOG.md" "$doc/changelog" && gzip -9n "$doc/changelog" || exit 1
    cp "$demo/debian/copyright" "$doc/" || exit 1
    who="${DEBFULLNAME:-auditor maintainers} <${DEBEMAIL:-auditor@example.org}>"
    date=$(date -u -R -d "@$SOURCE_DATE_EPOCH")
    printf 'auditor (%s-1) unstable; urgency=medium\n\n  * See changelog.gz.\n\n -- %s  %s\n' "$version" "$who" "$date" | gzip -9n >"$doc/changelog.Debian.gz" || exit 1
    mkdir "$root/DEBIAN" && cp "$demo/debian/postinst" "$demo/debian/prerm" "$demo/debian/postrm" "$root/DEBIAN/" || exit 1
    control >"$root/DEBIAN/control" || exit 1
    (cd "$root" && find usr lib -type f -print0 | LC_ALL=C sort -z | xargs -0 md5sum >DEBIAN/md5sums) || exit 1
    find "$root" -print0 | xargs -0 touch -h -d "@$SOURCE_DATE_EPOCH" || exit 1
    chmod -R u=rwX,go=rX "$root" && chmod 755 "$root/DEBIAN/"p* || exit 1
    debian=auditor_$version-1_$(dpkg --print-architecture).deb
    dpkg-deb --root-owner-group --build "$root" "$here/$debian" >/dev/null || exit 1
    (cd "$here" && sha256sum "$debian" >"$debian.sha256") || exit 1
    echo "$here/$debian: $(wc -c <"$here/$debian") bytes"
}

# The control file, with the C library that the program's names ask for.
control() {
    least=$(readelf -V "$program" | grep -o 'GLIBC_[0-9.]*' | sort -uV | tail -n 1 | cut -d _ -f 2)
    sed -e "s/VERSION/$version-1/" -e "s/ARCHITECTURE/$(dpkg --print-architecture)/" -e "s/MAINTAINER/$who/" \
        -e "s/LIBC/${least:+libc6 (>= $least), }/" -e "s/SIZE/$(du -k -s --apparent-size "$root" | cut -f 1)/" "$demo/debian/control"
}

make_tarball
[ -z "$deb" ] || make_deb

mkdir "$tree/fresh" && tar -xzf "$here/$name.tar.gz" -C "$tree/fresh" || exit 1
env -i PATH=/usr/bin:/bin "$tree/fresh/$name/share/auditor/demo/run.sh" >"$tree/said" || fail "the demo failed out of it"
echo "$here/$name.tar.gz: $(wc -c <"$here/$name.tar.gz") bytes, the program $(wc -c <"$program"); the demo ran out of it, $(wc -l <"$tree/said") replies"
