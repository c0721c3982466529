#!/usr/bin/env bash
# Tries tools/proving.sh on commands that only talk as rt does, and the message where the library is missing:
#   tools/try-proving.sh FOLDER
set -uo pipefail
folder=$1
source tools/expect.sh

crate() { echo "echo 'fn $1::x: proved'; echo 'crate $1: modules loaded=0 checked=9'; echo 'logic=$2 functions=1'"; }
all=$(($(sed -n 's/^yay staticlib://p' crates.txt | wc -w) + 1))
expect 'the crates of the library' 1 "$((all > 1))"
good=$(tools/proving.sh "$folder/talk.log" bash -c "echo 'only=0 proved=0'; $(crate exact proved); $(crate yay proved)")
expect 'its status' 0 $?
expect 'what is said at once' 1 "$(head -n 1 <<< "$good" | grep -c "its $all crates are proved first")"
expect 'a line for each crate' '  1: exact proved
  2: yay proved' "$(tail -n +3 <<< "$good")"
expect 'the whole log' 7 "$(wc -l < "$folder/talk.log")"
bad=$(tools/proving.sh "$folder/talk.log" bash -c "$(crate exact proved); $(crate strings not-proved); echo why; exit 3")
expect 'the status of a failure' 3 $?
expect 'what is said of it' '  2: strings NOT PROVED
It failed (exit status 3). The log ends:' "$(sed -n '4,5p' <<< "$bad")"
expect 'the end of the log' why "$(tail -n 1 <<< "$bad")"

# The crate is not built without the library, and says how to make it.
said=$(YAY_LIB_DIR=$PWD/$folder/nowhere CARGO_TARGET_DIR=$folder/cargo-missing \
    cargo build --quiet --manifest-path rust/Cargo.toml -p yay 2>&1)
expect 'no build without the library' 101 $?
expect 'how to make it' 1 "$(grep -c 'Run `make yay`' <<< "$said")"
tally try-proving
