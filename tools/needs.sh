#!/usr/bin/env bash
# Ends with status 1, and says in one line why, if the toolchain or Python is missing.
set -euo pipefail

missing() {
    echo "$1 is missing: $2" >&2
    exit 1
}

command -v rt > /dev/null || missing rt "put the folder bin/ of the Rattle toolchain on the PATH"
command -v python3 > /dev/null || missing python3 "install Python 3.8 or later"
