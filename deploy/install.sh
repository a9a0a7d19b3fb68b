#!/bin/sh
# Installs the executable and what belongs to it. `make install` and `make deb` call it, with DESTDIR, PREFIX and
# SYSCONFDIR in the environment. What is under SYSCONFDIR is the administrator's: files there are left as they are.
set -eu
top=$(cd "$(dirname "$0")/.." && pwd)
share=$DESTDIR$PREFIX/share
program=$top/build/registry
made=$(mktemp -d)
trap 'rm -rf "$made"' EXIT

put() { # MODE FILE TARGET
  install -D -m "$1" "$2" "$3"
}

keep() { # MODE FILE TARGET
  [ -e "$3" ] || put "$@"
}

put 755 "$program" "$DESTDIR$PREFIX/bin/registry"
python3 "$top/deploy/manual.py" man "$program" > "$made/registry.1"
python3 "$top/deploy/manual.py" completion "$program" > "$made/registry"
put 644 "$made/registry.1" "$share/man/man1/registry.1"
put 644 "$made/registry" "$share/bash-completion/completions/registry"
sed "s,/usr/,$PREFIX/," "$top/deploy/firkhen.service" > "$made/firkhen.service"
put 644 "$made/firkhen.service" "$DESTDIR$PREFIX/lib/systemd/system/firkhen.service"
put 644 "$top/deploy/firkhen.socket" "$DESTDIR$PREFIX/lib/systemd/system/firkhen.socket"
put 755 "$top/deploy/nginx/token-line" "$share/firkhen/token-line"
for page in "$top"/README.md "$top"/docs/*.md; do
  put 644 "$page" "$share/doc/firkhen/$(basename "$page")"
done
keep 644 "$top/deploy/firkhen.default" "$DESTDIR$SYSCONFDIR/default/firkhen"
keep 644 "$top/deploy/nginx/site.conf" "$DESTDIR$SYSCONFDIR/nginx/sites-available/firkhen"
keep 644 "$top/deploy/nginx/edge.conf" "$DESTDIR$SYSCONFDIR/nginx/sites-available/firkhen-edge"
keep 644 "$top/deploy/nginx/locations.conf" "$DESTDIR$SYSCONFDIR/nginx/firkhen/locations.conf"
keep 600 "$top/deploy/nginx/tokens.conf" "$DESTDIR$SYSCONFDIR/nginx/firkhen/tokens.conf"
