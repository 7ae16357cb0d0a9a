#!/usr/bin/env bash
# A run of the program that is no test, since it takes much memory: an input of one byte more than the limit is answered
# with `input too long` and status 8. Needs the built program, crates/bmp/out/bmp.
set -euo pipefail
cd "$(dirname "$0")/.."

status=0
text=$(head -c 268435457 /dev/zero | crates/bmp/out/bmp check) || status=$?
if [ "$text" != "input too long" ] || [ $status -ne 8 ]; then
    echo "268435457 bytes: '$text', status $status"
    exit 1
fi
