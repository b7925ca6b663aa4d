#!/usr/bin/env bash
# install.sh PACKAGES..: Debian's packages, those for amd64 too. One at a time, since tests run beside each other.
set -eu
exec 9>"${TMPDIR:-/tmp}/balladmoor-install.lock"
flock 9
dpkg --add-architecture amd64
apt-get update
DEBIAN_FRONTEND=noninteractive apt-get install -y --no-install-recommends "$@"
