#!/usr/bin/env bash
# Tries the two C headers as a program would use them: `tools/try-header.sh LIBRARY FOLDER FLAGS YAY`.
# The program in c/README.md is built and run; line and column of yay_help.h are those of the command.
set -uo pipefail
library=$1 folder=$2 yay=$4
read -ra flags <<< "$3"
source tools/expect.sh

sed -n '/^```c$/,/^```$/{/^```/!p}' c/README.md > "$folder/readme.c"
cc "${flags[@]}" -O2 "$folder/readme.c" "$library" -o "$folder/readme" || exit 1
expect "c/README's program" 'stable, in line 2' "$("$folder/readme" < examples/tablet.yay)"
expect "c/README's program, refused" '1:11: SYNTAX: no document goes on like this' \
    "$(printf 'doors: [1,2]\n' | "$folder/readme")"
expect "c/README's program, no such key" "NONE: the key isn't in the object" "$(printf 'a: 1\n' | "$folder/readme")"

# Bytes as printf takes them, each refused.
for document in '' '1' 'a: 1 \n' 'a: 1\nb:\t2\n' '"Gr\303\266\303\237e": [1,2]\n' 'a: "\344h"\n' '"\302\205"\n' \
    '\360\237\230\200\n' 'a: 1\na: 2\n' '\n' 'a:\n  "\355\240\200"\n' '# \346\227\245\n# \346\227\n'; do
    # shellcheck disable=SC2059
    printf "$document" > "$folder/refused.yay"
    wanted=$("$yay" check "$folder/refused.yay" 2>&1 | sed -n '1s/).*/)/p')
    expect "where $document is refused" "$wanted" "$("$folder/example" "$folder/refused.yay" | sed -n '1s/).*/)/p')"
    expect "that $document is refused" 1 "$(grep -c "^$folder/refused.yay:[0-9]*:[0-9]*: [A-Z]* (" <<< "$wanted")"
done

# A program that has no more than these two can link the library.
expect 'what the library asks for' 'memcpy memset' "$(nm -u "$library" | awk '$1 == "U" { print $2 }' | sort -u | xargs)"

if command -v c++ > /dev/null; then
    printf '#include "yay_help.h"\nint main() { return yay_kind_name(1)[0] != 110; }\n' > "$folder/help.cc"
    c++ -std=c++11 -Wall -Wextra -Werror -Iinclude "$folder/help.cc" -o "$folder/help-cc"
    expect 'the headers in C++' 0 "$("$folder/help-cc"; echo $?)"
fi
tally try-header
