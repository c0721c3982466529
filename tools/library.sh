#!/usr/bin/env bash
# Makes build/lib/libyay.a, which every x86-64 processor runs; `tools/library.sh aarch64` makes build/aarch64/libyay.a.
# The kit itself runs on x86-64 alone. It compiles for x86-64-v2 unless told otherwise, and a library does not test its processor.
set -euo pipefail
cd "$(dirname "$0")/../crates/yay"
case ${1:-x86-64} in
    x86-64) folder=lib words=(--cpu x86-64) ;;
    aarch64) folder=aarch64 words=(--target aarch64-unknown-linux-gnu) ;;
    *)
        echo "library.sh: the kit compiles for x86-64 and aarch64, not for $1" >&2
        exit 2
        ;;
esac
rt lib "${words[@]}"
install -D -m 644 out/libyay.a "../../build/$folder/libyay.a"
