#!/usr/bin/env bash
# Runs relayd with other mail programs over 127.0.0.1: Postfix, Exim and OpenSMTPD, each as a client of it and as its
# next hop, swaks and Python's smtplib as clients, and two relays behind HAProxy.
#
#   tests/interop.sh build/relayd
#
# The servers conflict as packages, so each that isn't installed is fetched with what it needs (`apt-get download`)
# and unpacked below PACKAGES (build/interop), and each runs in a root of its own: an overlay over this machine's
# files that lasts as long as the server, with users and a configuration of its own. That asks for the superuser.
# What can't be had is skipped by name.
set -euo pipefail
export LC_ALL=C
cd "$(dirname "$0")/.."

relayd=$1
packages=$(realpath -m "${PACKAGES:-build/interop}")
mkdir -p "$packages"
log=$packages/log
: > "$log"

# The packages that apt would install for this one, itself too. None where it is installed.
missing() {
    apt-get install --simulate --no-install-recommends "$1" 2>> "$log" | awk '$1 == "Inst" { print $2 }'
}

# Where the root of this machine has links into usr/, a folder of that name in a layer above would hide one.
join_usr() {
    local name
    for name in bin sbin lib lib64; do
        if [ -L "/$name" ] && [ -d "$1/$name" ]; then
            mkdir -p "$1/usr/$name"
            cp -a "$1/$name/." "$1/usr/$name/"
            rm -r "${1:?}/$name"
        fi
    done
}

# unpack PACKAGE: its files, and those of what it needs, in a folder of its name; whether it could be had.
unpack() {
    local folder=$packages/$1 names
    [ -e "$folder.ready" ] && return 0
    rm -rf "$folder" "$folder.deb"
    mkdir -p "$folder" "$folder.deb"
    names=$(missing "$1") || return 1
    if [ -n "$names" ]; then
        # One word for each package.
        (cd "$folder.deb" && apt-get download $names >> "$log" 2>&1) || return 1
        for file in "$folder.deb"/*.deb; do
            dpkg-deb -x "$file" "$folder" || return 1
        done
    fi
    rm -r "$folder.deb"
    join_usr "$folder"
    touch "$folder.ready"
}

had=()
for package in postfix exim4-daemon-light opensmtpd swaks haproxy; do
    if unpack "$package"; then
        had+=("$package")
    else
        echo "interop: skipped: $package can't be had; $log says why (without lists of packages: apt-get update)"
    fi
done
tests/interop.py "$relayd" "$packages" "${had[@]}"
