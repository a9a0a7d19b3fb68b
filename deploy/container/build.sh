#!/bin/sh
# Makes an image of build/registry by buildah: IMAGE, or firkhen:VERSION. The C library and its loader are this
# machine's, which are those that the executable was tested with.
set -eu
top=$(cd "$(dirname "$0")/../.." && pwd)
program=$top/build/registry
made=$(mktemp -d)
trap 'rm -rf "$made"' EXIT
image=${1:-firkhen:$("$program" --version | cut -d' ' -f2)}

chmod 755 "$made"
mkdir "$made/root"
mkdir -m 700 "$made/data"
chmod 755 "$made/root"
install -D -m 755 "$program" "$made/root/usr/bin/registry"
ldd "$program" | awk '{ for (i = 1; i <= NF; i++) if ($i ~ "^/") print $i }' | while read -r library; do
  install -D -m 755 "$(readlink -f "$library")" "$made/root$library"
done
buildah build --quiet --file "$top/deploy/container/Containerfile" --tag "$image" "$made" > /dev/null
echo "$image"
