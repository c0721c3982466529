#!/usr/bin/env bash
# Runs a command that proves, shows a line for each crate, and keeps all that it says: `tools/proving.sh LOG COMMAND..`.
# Its exit status is the command's.
set -uo pipefail
log=$1
shift
mkdir -p "$(dirname "$log")"
crates=$(sed -n 's/^yay staticlib://p' crates.txt | wc -w)
echo "Making the library: its $((crates + 1)) crates are proved first, which takes its time once;"
echo "of crates that were proved before and are unchanged nothing is said. The whole log is $log."
"$@" 2>&1 | tee "$log" | awk '
    /^crate [a-z0-9_]+: / { name = substr($2, 1, length($2) - 1) }
    /^logic=/ { printf "%3d: %s %s\n", ++done, name, /^logic=proved / ? "proved" : "NOT PROVED"; fflush() }'
status=${PIPESTATUS[0]}
if [ "$status" != 0 ]; then
    echo "It failed (exit status $status). The log ends:"
    grep -vE '^(statements|library|logic) ' "$log" | tail -n 20
fi
exit "$status"
