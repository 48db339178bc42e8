#!/usr/bin/env bash
# Makes drop_VERSION_amd64.deb from the proved program crates/drop/out/drop, in the current folder or in the given one.
# The same commit and the same program produce the same bytes.
#
#     bash deploy/package.sh [FOLDER]
#
# DROP names another program to pack, and PACKAGE_VERSION another version.
set -euo pipefail
out=$(realpath "${1:-.}")
cd "$(dirname "$0")/.."
program=${DROP:-crates/drop/out/drop}
test -x "$program" || { echo "there is no $program: README.md says how it is built" >&2; exit 1; }
version=${PACKAGE_VERSION:-$("$program" --version | cut -d' ' -f2)}
# All times in the package are that of the commit, or SOURCE_DATE_EPOCH if it is set.
SOURCE_DATE_EPOCH=${SOURCE_DATE_EPOCH:-$(git log -1 --format=%ct)}
export SOURCE_DATE_EPOCH
work=$(mktemp -d)
trap 'rm -rf "$work"' EXIT
tree=$work/tree
umask 022

# The program without its symbols, its manual page and its unit.
install -D -m 755 "$program" "$tree/usr/bin/drop"
strip --strip-all "$tree/usr/bin/drop"
mkdir -p "$tree/usr/share/man/man1"
python3 -B deploy/manual.py "$program" "$version" "$SOURCE_DATE_EPOCH" | gzip -9n >"$tree/usr/share/man/man1/drop.1.gz"
install -D -m 644 deploy/drop.service "$tree/lib/systemd/system/drop.service"

# The web page, the site for nginx as an example, and the documents for users.
install -d "$tree/usr/share/drop/page"
install -m 644 page/* "$tree/usr/share/drop/page/"
install -D -m 644 deploy/nginx.conf "$tree/usr/share/doc/drop/examples/nginx.conf"
install -m 644 deploy/debian/copyright "$tree/usr/share/doc/drop/"
for document in USE DEPLOY RULES; do
    gzip -9nc "docs/$document.md" >"$tree/usr/share/doc/drop/$document.md.gz"
done
sed "s/VERSION/$version/; s/DATE/$(date -R -u -d "@$SOURCE_DATE_EPOCH")/" deploy/debian/changelog \
    | gzip -9n >"$tree/usr/share/doc/drop/changelog.gz"

# What dpkg reads. The required libc is the newest version whose symbols the program uses.
libc=$(objdump -T "$program" | grep -o 'GLIBC_[0-9.]*' | sed 's/GLIBC_//' | sort -uV | tail -1)
install -d "$tree/DEBIAN"
sed "s/VERSION/$version/; s/LIBC/$libc/; s/SIZE/$(du -sk --apparent-size "$tree" | cut -f1)/" deploy/debian/control \
    >"$tree/DEBIAN/control"
install -m 644 deploy/debian/templates "$tree/DEBIAN/"
for script in config postinst prerm postrm; do
    install -m 755 "deploy/debian/$script" "$tree/DEBIAN/"
done
(cd "$tree" && find usr lib -type f -print0 | LC_ALL=C sort -z | xargs -0 md5sum >DEBIAN/md5sums)
find "$tree" -exec touch --no-dereference --date="@$SOURCE_DATE_EPOCH" {} +
dpkg-deb --root-owner-group --build "$tree" "$out/drop_${version}_amd64.deb"
