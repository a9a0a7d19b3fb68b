#!/bin/sh
# Installs what `make check-clients`, `make check-docs` and `make check-install` look for, by apt, as root: a
# proxy, the clients, and what looks at files and the package. No service is started for them: the checks start
# what they need in a folder.
set -eu
export DEBIAN_FRONTEND=noninteractive
apt-get update
apt-get install --yes --no-install-recommends \
  nginx-light openssl curl skopeo buildah podman containerd docker.io golang-go golang-oras-oras-go-dev \
  sqlite3 dpkg-dev man-db bash-completion systemd
