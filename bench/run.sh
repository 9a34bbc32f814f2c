#!/usr/bin/env bash
# Times the interpreter and the loads of programs: bench/run.sh [--rounds N] [--only WORD] [--no-counts] [--no-loads] [--before BPFHOST].
# README.md in this folder explains the output. It needs python3, and rt, or a built program in BPFHOST.
set -euo pipefail
if [ "${1:-}" = --help ]; then
    sed -n "2,3s/^# //p" "$0"
    exit 0
fi
if [ -n "${BPFHOST:-}" ]; then BPFHOST=$(realpath "$BPFHOST"); fi
words=()
while [ $# -gt 0 ]; do
    if [ "$1" = --before ] && [ $# -gt 1 ]; then
        words+=("$1" "$(realpath "$2")")
        shift
    else
        words+=("$1")
    fi
    shift
done
cd "$(dirname "$0")/.."
scratch=$(mktemp -d)
trap 'rm -rf "$scratch"' EXIT

if [ -z "${BPFHOST:-}" ]; then
    (cd crates/bpfhost && rt run -- serve --tenants 1 < /dev/null > "$scratch/log" 2>&1) || { cat "$scratch/log"; exit 1; }
    BPFHOST=crates/bpfhost/out/bpfhost
fi
plain=()
if command -v "${CC:-cc}" > /dev/null; then
    "${CC:-cc}" -std=gnu11 -O3 -fno-strict-aliasing -o "$scratch/plain" bench/plain.c
    "${CC:-cc}" -std=gnu11 -O1 -fno-strict-aliasing -DCOUNT -o "$scratch/counting" bench/plain.c
    plain=("$scratch/plain")
    words+=(--counting "$scratch/counting")
    if command -v pkg-config > /dev/null && pkg-config --exists libdpdk; then
        read -ra dpdk <<< "$(pkg-config --cflags libdpdk)"
        "${CC:-cc}" -std=gnu11 -O3 -fno-strict-aliasing -DDPDK "${dpdk[@]}" -o "$scratch/dpdk" bench/plain.c -lrte_bpf -lrte_eal
        plain+=("$scratch/dpdk")
    else
        echo "no libdpdk by pkg-config (Debian: libdpdk-dev): no comparison with DPDK"
    fi
else
    echo "no C compiler ${CC:-cc}: nothing to compare with"
fi
python3 bench/measure.py "${words[@]}" "$BPFHOST" "${plain[@]}"
