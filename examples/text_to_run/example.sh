#!/usr/bin/env bash
# From a program's text to a test run. usage: example.sh BPFHOST
set -euo pipefail
bpfhost=$(realpath "${1:?usage: example.sh BPFHOST}")
cd "$(dirname "$0")"
scratch=$(mktemp -d)
trap 'rm -rf "$scratch"' EXIT
client() { PYTHONPATH=../../clients/python python3 -B -m bpfhost "$@"; }

echo "asm makes slots of the text:"
"$bpfhost" asm < program.txt | tee "$scratch/slots"

echo "verify judges them:"
"$bpfhost" verify < "$scratch/slots"

echo "dis makes a text of them again, with distances in place of labels:"
"$bpfhost" dis < "$scratch/slots" | tee "$scratch/text"

echo "asm makes the same slots of that text:"
"$bpfhost" asm < "$scratch/text" | cmp - "$scratch/slots" && echo same

echo "serve loads them for tenant 0, and runs them on packets of 60, 14, 13 and 0 bytes:"
{
    client load 0 < "$scratch/slots"
    for length in 60 14 13 0; do
        client test-run 0 3 "$(printf '%*s' $((2 * length)) '' | tr ' ' 0)"
    done
} | "$bpfhost" serve --tenants 1 | client replies

# An error is a line and a status.
told() { "$bpfhost" "$@" 2>&1 || echo "(status $?)"; }

echo "a line that is no instruction, the second one:"
printf 'r0 = 0\nr0 =+ 1\nexit\n' | told asm
echo "a program that returns an unwritten register:"
printf 'exit\n' | "$bpfhost" asm | told verify
