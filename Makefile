# What a fresh checkout is asked for. `rt` is the command of the Rattle kit (see the README); `make help` says
# what each target is for.

PROCESSORS := $(shell nproc)
# The first run: a registry in memory, with one repository and one token.
DEMO := stdio --memory --repo team/app=1000 --grant t1=team/app=3

.PHONY: help demo build try test check edits dear lint check-file check-rows check-words check-hostile check-clients check-install
.PHONY: check-docs check-container bench bench-quick bench-http bench-senses bench-day install deb fmt clean

# docs/PERFORMANCE.md has what was measured.
help:
	@echo 'make demo            a push and a pull of the blob `abc`, then a manifest and its referrers (3 min, 2 GB;'
	@echo '                     at once after make build)'
	@echo 'make build           proves the program and all below it; leaves build/registry (one to two hours of a'
	@echo '                     processor, on all there are; up to 8 GB, and 4 GB of disk; then what has changed)'
	@echo 'make test            the merge gate: proofs, edits, tests, all of them from nothing the first time'
	@echo '                     (some three hours of a processor, on four at most; up to 16 GB)'
	@echo 'make try ARGS=".."   runs the program unproved, for a first look: make try ARGS="--help" (3 min, 2 GB)'
	@echo 'make check CRATE=x   proves one crate over what earlier checks kept (seconds after an edit)'
	@echo 'make edits CRATE=x   tries the must-fail edits of one crate (20 to 60 s each)'
	@echo 'make dear CRATE=x    what takes long in a check of one crate, or with FN=f which goals of a function'
	@echo '                     (after make build; 1 to 5 min)'
	@echo 'make lint            lengths of files and lines, reasons of edits, tables of crates, scripts (1 s)'
	@echo 'make check-file      a server'"'"'s file after pushes by curl, looked at by sqlite3'
	@echo 'make check-rows      the worked examples by the program itself, over a file (after make test; 10 s)'
	@echo 'make check-words     command lines, and what they say, end with and leave in files (after make test; 1 min)'
	@echo 'make check-hostile   refuses each growth of memory, stops the disk at each write, kills servers, puts older'
	@echo '                     copies back, gives orders beside requests (after make test; 18 min)'
	@echo 'make check-clients   curl, skopeo, ctr, buildah, podman, oras-go and docker straight and through nginx, those'
	@echo '                     that are installed (deploy/install-clients.sh installs them), and two edges before one'
	@echo '                     registry; ONLY=straight'
	@echo 'make check-container the image of deploy/container, and the registry in it (10 s)'
	@echo 'make check-docs      the commands of the tutorial and other pages, and what they print (10 s)'
	@echo 'make install         executable, man page, completion, service and nginx files (PREFIX, DESTDIR, SYSCONFDIR)'
	@echo 'make deb             the same as a Debian package, build/firkhen_*.deb; make check-install looks at both'
	@echo 'make bench           requests over loopback, on one connection and on many, beside docker-registry, nginx,'
	@echo '                     sha256sum, dd and cat where installed; and how cost grows with what a registry holds'
	@echo '                     (under 9 min, after make build; OLD=path: beside an older executable as well, 10 min)'
	@echo 'make bench-quick     its ten lines that matter (60 s, after make build)'
	@echo 'make bench-http      requests a second over standard input, beside cat and sha256sum'
	@echo 'make bench-senses    whether time tells that another team holds bytes, over both layouts (4 h; with'
	@echo '                     TRIES=150 LARGE=16 a quarter of an hour)'
	@echo 'make bench-day       20 images pushed and pulled by skopeo, over contents beside the database, beside'
	@echo '                     docker-registry where installed; then half of them deleted, and as many pushed'
	@echo 'make fmt, make clean lays out the sources; removes what was built'

# demo/requests.http on one connection, and the five replies, byte for byte. Without a build, the same
# program runs unproved.
demo:
	@echo '$$ registry $(DEMO) < demo/requests.http' >&2
	@if [ -x build/registry ]; then build/registry $(DEMO) < demo/requests.http; else \
	  echo 'This run is not proved yet: `make build` proves it (one to two hours of a processor, on all there are; up to 8 GB).' >&2; \
	  cd crates/registry_cli && rt try -- $(DEMO) < ../../demo/requests.http; fi
	@echo

# Proves the program and everything below it, and leaves the executable as build/registry.
build:
	@echo 'Proves some 1,500 functions, from nothing the first time: one to two hours of a processor, on all there are side by side, and up to 8 GB of memory.' >&2
	python3 -m tools.build

# The program unproved: a command, or for SECONDS_OF_TRY a server. Name files by whole paths.
SECONDS_OF_TRY = 600
try:
	cd crates/registry_cli && rt try --seconds $(SECONDS_OF_TRY) -- $(ARGS)

check:
	cd crates/$(CRATE) && rt check

edits:
	rt must-fail $(CRATE)

# What takes long in a check of one crate, and with FN=f which goals of a function are long searched for.
FN =
dear:
	python3 -m tools.dear $(CRATE) $(FN)

# What no proof looks at: lengths, the reasons of edits, the tables of crates.
lint:
	@python3 -m tools.lint

# The merge gate. A check for each processor, four at most: by itself rt waits until more memory is free than
# its checks take. What it leaves is build/registry, too.
test:
	@sum=$$(python3 -m tools.build --sum) && \
	  RT_JOBS=$$(( $(PROCESSORS) < 4 ? $(PROCESSORS) : 4 )) rt ci && python3 -m tools.build --of-gate $$sum

# A server's database file, looked at by another program: needs curl and sqlite3 beside python3.
check-file: build/registry
	python3 -m check.file

# The worked examples by the program itself, commands by its orders (python3).
check-rows:
	python3 -m check.rows

# The program on command lines, over files and sockets (python3 with its sqlite3).
check-words:
	python3 -m check.words

# Hostile memory, a hostile disk, kills, and orders beside requests, over the executables that `make test` leaves: python3 and rustc.
KILLS = 100
check-hostile:
	python3 -m check.hostile --kills $(KILLS)

# Real clients, straight and through nginx with the configuration of deploy/nginx, and edges (python3, nginx,
# openssl). ONLY names some of the ways (straight, nginx, edges), or clients.
ONLY =
check-clients:
	python3 -m check.clients $(ONLY)

# Where things go; nginx and the service read SYSCONFDIR.
PREFIX = /usr/local
DESTDIR =
SYSCONFDIR = /etc

# (what the gate left is as proved as what `make build` leaves)
build/registry:
	@if [ -x crates/registry_cli/out/registry_cli ]; then \
	  mkdir -p build && cp crates/registry_cli/out/registry_cli build/registry; else $(MAKE) build; fi

install: build/registry
	DESTDIR="$(DESTDIR)" PREFIX="$(PREFIX)" SYSCONFDIR="$(SYSCONFDIR)" deploy/install.sh

# A Debian package, by dpkg-deb.
deb: build/registry
	deploy/deb.sh

# What these two make: files and modes, the man page and the completion beside --help, the unit by systemd-analyze.
check-install: build/registry
	python3 -m check.install

# The image of deploy/container, and the registry in it (buildah, curl, root; 10 s).
check-container: build/registry
	python3 -m check.container

# The commands of the pages, and what they print (python3, curl, skopeo, podman, nginx, openssl, sqlite3).
check-docs: build/registry
	python3 -m check.docs

# Requests over loopback on a database file, beside docker-registry and nginx where installed, sha256sum, dd and cat
# (python3 with its sqlite3). OLD names an older executable, which is measured in the same run.
OLD =
bench: build
	python3 -m bench.loopback $(if $(OLD),--old '$(OLD)')

bench-quick: build
	python3 -m bench.loopback --quick

# Requests a second and MB/s over standard input, beside `cat` and `sha256sum` of the same bytes (python3).
bench-http: build
	python3 -m bench.stdio

# Pushes of bytes that another team holds, and of others, in random order: which are the quicker (python3).
# TRIES and LARGE (of 8 MiB and more) say of how many of each.
TRIES = 400
LARGE = $(TRIES)
bench-senses: build
	python3 -m bench.senses --tries $(TRIES) --large $(LARGE)

# A day of a registry whose contents are beside its database (python3, skopeo; docker-registry).
bench-day: build
	python3 -m bench.day

fmt:
	for crate in crates/*/; do (cd $$crate && rt fmt) || exit 1; done

clean:
	rm -rf build crates/*/out
