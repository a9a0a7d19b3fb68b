#!/bin/sh
# Makes build/firkhen_VERSION_ARCHITECTURE.deb, by dpkg-deb, from what `make install` would install.
set -eu
top=$(cd "$(dirname "$0")/.." && pwd)
program=$top/build/registry
made=$(mktemp -d)
trap 'rm -rf "$made"' EXIT
version=$("$program" --version | cut -d' ' -f2)
architecture=$(dpkg --print-architecture)
# (a checkout that git does not read is of today)
when=${SOURCE_DATE_EPOCH:-$(git -C "$top" log -1 --format=%ct 2> /dev/null || date +%s)}
package=$made/package
documents=$package/usr/share/doc/firkhen

chmod 755 "$made"
mkdir -m 755 "$package"
umask 022
DESTDIR=$package PREFIX=/usr SYSCONFDIR=/etc "$top/deploy/install.sh"
gzip -9n "$package/usr/share/man/man1/registry.1"
install -m 644 "$top/deploy/debian/copyright" "$documents/copyright"
{
  printf 'firkhen (%s) unstable; urgency=medium\n\n  * What changed: CHANGELOG.md of the source.\n\n' "$version"
  printf ' -- Firkhen maintainers <maintainers@users.noreply.firkhen.example>  %s\n' "$(date -u -R -d "@$when")"
} | gzip -9n > "$documents/changelog.gz"

# The libraries that the executable needs, as Debian names them.
mkdir -p "$made/source/debian"
printf 'Source: firkhen\n\nPackage: firkhen\nArchitecture: any\n' > "$made/source/debian/control"
needs=$(cd "$made/source" && dpkg-shlibdeps -O "$package/usr/bin/registry" | sed -n 's/^shlibs:Depends=//p')

mkdir "$package/DEBIAN"
sed "s/@VERSION@/$version/; s/@ARCHITECTURE@/$architecture/; s/@NEEDS@/${needs:+$needs, }/" \
  "$top/deploy/debian/control" > "$package/DEBIAN/control"
printf 'Installed-Size: %s\n' "$(du -sk --exclude=DEBIAN "$package" | cut -f1)" >> "$package/DEBIAN/control"
for script in postinst prerm postrm; do
  install -m 755 "$top/deploy/debian/$script" "$package/DEBIAN/$script"
done
(cd "$package" && find etc -type f | sed 's,^,/,' | sort) > "$package/DEBIAN/conffiles"
(cd "$package" && find usr -type f -exec md5sum {} + | sort -k 2) > "$package/DEBIAN/md5sums"
find "$package" -exec touch -h -d "@$when" {} +
SOURCE_DATE_EPOCH=$when dpkg-deb --root-owner-group --build "$package" "$top/build/firkhen_${version}_$architecture.deb"
