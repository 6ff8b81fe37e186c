#!/usr/bin/env bash
# Has systemd look at docs/relayd.service, whose program stands at another place here: it has nothing to say of it.
#
#   tests/unit_file.sh build/relayd
set -euo pipefail

program=$(realpath "$1")
cd "$(dirname "$0")/.."
if ! command -v systemd-analyze > /dev/null; then
    echo "unit_file: skipped: systemd-analyze isn't there"
    exit 0
fi
room=$(mktemp -d)
trap 'rm -rf "$room"' EXIT

sed -E "s|^(Exec[A-Za-z]+=-?)/usr/local/bin/relayd |\\1$program |" docs/relayd.service > "$room/relayd.service"
grep -q "^ExecStart=$program run --config " "$room/relayd.service" || {
    echo "unit_file: docs/relayd.service starts another program" >&2
    exit 1
}
# The manual page isn't installed here.
said=$(systemd-analyze verify --man=no "$room/relayd.service" 2>&1) || said="$said (status $?)"
if [ -n "$said" ]; then
    echo "unit_file: systemd-analyze verify: $said" >&2
    exit 1
fi
echo "unit_file: docs/relayd.service has no fault"
