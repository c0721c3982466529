#!/usr/bin/env bash
# Builds and runs the C example and the C tests with AddressSanitizer and UndefinedBehaviorSanitizer:
#   tools/sanitize.sh LIBRARY FOLDER FLAGS PROFILE..
# Three of the tests also lend memory between pages that may not be touched.
set -euo pipefail
library=$1 folder=$2
read -ra flags <<< "$3"
shift 3
for name in example boundary overlays stored help; do
    cc "${flags[@]}" -g -O1 -fsanitize=address,undefined -fno-sanitize-recover=all \
        "c/$name.c" "$library" -o "$folder/$name-sanitized"
done
"$folder/example-sanitized" examples/tablet.yay | diff c/example.out -
"$folder/boundary-sanitized" "$@"
"$folder/overlays-sanitized"
"$folder/stored-sanitized" "$@"
"$folder/help-sanitized"
echo "sanitize: nothing was found by AddressSanitizer and UndefinedBehaviorSanitizer"
