#!/usr/bin/env bash
# How many proofs go side by side on this machine: what RT_JOBS says, else one for each processor that has 3 GB of free
# memory, and one at least.
set -euo pipefail
if [[ ${RT_JOBS:-} =~ ^[1-9][0-9]*$ ]]; then
    echo "$RT_JOBS"
    exit
fi
processors=$(nproc)
free=$(awk '/^MemAvailable:/ { print int($2 / 3000000) }' /proc/meminfo)
lanes=$((free < processors ? free : processors))
echo $((lanes > 0 ? lanes : 1))
