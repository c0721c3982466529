#!/usr/bin/env bash
# Tries a built command as a user would, on what the tests inside rust/ cannot see: `tools/try-command.sh build/yay`.
set -uo pipefail
yay=$1
source tools/expect.sh
printf '1\n' > build/good.yay
printf 1 > build/bad.yay

expect 'a value for scripts' stable "$("$yay" get examples/tablet.yay image-channel)"
expect 'a word of escapes' '(standard input): ok, 3 rows, 3 bytes of text, 2 escapes' \
    "$(printf '"\\n": "\\u{41}x"\n' | "$yay" check -)"
expect 'line and column before each value' '2:1  array of 2 elements
2:3    0: string "é"
3:3    1: integer 2' "$(printf '# é\n- "é"\n- 2\n' | "$yay" show -p -)"
expect 'line and column in rows' '2 4 12 13 2 3 0 3 2 7 integer 1' \
    "$(printf '# é\n["é", 1]\n' | "$yay" rows - | tail -n 1 | tr -s ' ' | sed 's/^ //')"
expect 'bytes as they are' "$(printf '\x00\xff\n' | od -An -tx1)" \
    "$(printf 'a: <00ff0a>\n' | "$yay" get --raw - a | od -An -tx1)"
expect 'an answer before the next document' 'ok 1 1 0 4,0,1,0,1,0,1,1,1 31' "$(
    coproc batch { "$yay" batch; }
    printf '\x02\x00\x00\x001\n' >&"${batch[1]}"
    read -r -t 20 line <&"${batch[0]}"
    echo "$line"
)"

# Files are written whole or not at all, and what is written is in the house style.
cp examples/gate.yay build/house.yay
expect 'not in the house style' 'build/house.yay
1' "$("$yay" fmt --check build/house.yay; echo $?)"
expect 'written into itself' 0 "$("$yay" write build/house.yay -o build/house.yay; echo $?)"
expect 'in the house style then' 0 "$("$yay" fmt --check build/house.yay; echo $?)"
expect 'with the same values' "$("$yay" json examples/gate.yay)" "$("$yay" json build/house.yay)"
expect 'a full disk is an error of write' 2 "$("$yay" write examples/gate.yay > /dev/full 2> /dev/null; echo $?)"
(printf '['; yes '1, ' | head -n 300000 | tr -d '\n'; echo '1]') > build/list.yay
expect 'too long to be written leaves the file' "1 $(cksum < build/house.yay)" \
    "$("$yay" write build/list.yay -o build/house.yay 2> /dev/null; echo $? "$(cksum < build/house.yay)")"
# No file may grow: the one beside cannot be made whole.
expect 'a full disk leaves the file' "2 $(cksum < build/house.yay)" \
    "$(ulimit -f 0; trap '' XFSZ; "$yay" write examples/tablet.yay -o build/house.yay 2> /dev/null; echo $? "$(cksum < build/house.yay)")"
expect 'and nothing beside it' '' "$(find build -maxdepth 1 -name '.house.yay*')"

# A script goes by the exit status of a decision, and 0 is install alone.
sheet=examples/release.yay
decided() { "$yay" decide "$sheet" --installed "$1" > /dev/null 2>&1; echo $?; }
for pair in '[9]:0' '[10, 1, 99]:0' '[10, 2]:4' '[10, 10]:4' '[8, 99]:5' '[]:1' '[-9]:1' '9:1' '[9:1'; do
    expect "the decision over ${pair%:*}" "${pair##*:}" "$(decided "${pair%:*}")"
done
expect 'one word' install "$("$yay" decide "$sheet" examples/installed.yay | cut -d: -f1)"
expect 'an installed version on standard input' keep "$(echo '[11]' | "$yay" decide "$sheet" - | cut -d: -f1)"
expect 'a profile is no sheet' 'examples/tablet.yay:2:1: BADSHEET (14)' \
    "$("$yay" decide examples/tablet.yay examples/installed.yay 2>&1 | sed -n '1s/: the key.*//p')"
expect 'a full disk is no install' 2 "$("$yay" decide "$sheet" examples/installed.yay > /dev/full 2> /dev/null; echo $?)"
expect 'a sheet that is not there' 2 "$("$yay" decide build/none.yay examples/installed.yay 2> /dev/null; echo $?)"
# shellcheck disable=SC2216
expect 'a decision that nobody reads' 4 "$({ sleep 0.2; "$yay" decide "$sheet" --installed '[11]'; } | true; echo "${PIPESTATUS[0]}")"
expect 'a decision in a stack of 128 KB' 0 "$(ulimit -s 128; "$yay" decide "$sheet" examples/installed.yay > /dev/null; echo $?)"

# Profiles laid over each other are written whole or not at all, in any grouping.
overlay() { "$yay" overlay "$@" 2>&1; }
layers=(examples/all-tablets.yay examples/north.yay examples/cold-store.yay)
overlay "${layers[@]}" > build/laid.yay
expect 'a site over its region over the fleet' beta "$("$yay" get build/laid.yay image-channel)"
expect 'the result is in the house style' '' "$("$yay" fmt --check build/laid.yay)"
expect 'the other grouping' '' "$(overlay "${layers[@]:1}" | overlay "${layers[0]}" - | diff build/laid.yay -)"
expect 'an overlay over itself' '' "$(overlay build/laid.yay build/laid.yay | diff build/laid.yay -)"
expect 'into one of its files' '0 beta' "$(cp "${layers[0]}" build/over.yay; overlay build/over.yay "${layers[2]}" -o build/over.yay; echo $? "$("$yay" get build/over.yay image-channel)")"
expect 'a clash leaves the file' "1 $(cksum < build/over.yay)" \
    "$(printf 'lamp: 1\n' | overlay build/over.yay - -o build/over.yay > /dev/null; echo $? "$(cksum < build/over.yay)")"
expect 'a clash and its line in both files' 'build/clash.yay:3:3: CLASH (16): the key "battery" "warn" is an object here, and an array in examples/all-tablets.yay:9:3' \
    "$(printf 'x: 1\nbattery:\n  warn: {}\n' > build/clash.yay; overlay "${layers[@]:0:2}" build/clash.yay | head -1)"
expect 'a full disk is an error of overlay' 2 "$("$yay" overlay "${layers[@]}" > /dev/full 2> /dev/null; echo $?)"
expect 'a full disk leaves the laid file' "2 $(cksum < build/over.yay)" \
    "$(ulimit -f 0; trap '' XFSZ; "$yay" overlay "${layers[@]}" -o build/over.yay 2> /dev/null; echo $? "$(cksum < build/over.yay)")"
expect 'and nothing beside the laid file' '' "$(find build -maxdepth 1 -name '.over.yay*')"
expect 'a profile that is not there' 2 "$(overlay "${layers[0]}" build/none.yay > /dev/null; echo $?)"
expect 'one profile alone' 2 "$(overlay "${layers[0]}" > /dev/null; echo $?)"

# A stored form is written whole or not at all, never to a terminal unasked, and holds the same tree.
profile=examples/tablet.yay
"$yay" store "$profile" -o build/tablet.stored
expect 'a stored form in a pipe' '' "$("$yay" store "$profile" | cmp - build/tablet.stored 2>&1)"
expect 'and where a pipe is named' '' "$("$yay" store "$profile" -o - | cmp - build/tablet.stored 2>&1)"
expect 'what is loaded is what is read' '' "$("$yay" load build/tablet.stored | diff <("$yay" show "$profile") -)"
expect 'what is loaded is written as the document' '' "$("$yay" write --stored build/tablet.stored | diff <("$yay" write "$profile") -)"
expect 'what is loaded is as JSON as the document' '' "$("$yay" json --stored build/tablet.stored | diff <("$yay" json "$profile") -)"
expect 'and is stored as the same bytes' '' "$("$yay" write --stored build/tablet.stored | "$yay" store - | cmp - build/tablet.stored 2>&1)"
expect 'a value of a stored form' stable "$("$yay" get --stored - image-channel < build/tablet.stored)"
expect 'a stored form cut short' 1 "$(head -c 100 build/tablet.stored | "$yay" check --stored - 2> /dev/null; echo $?)"
expect 'a message of a stored form has no line' '' "$(head -c 100 build/tablet.stored | "$yay" load - 2>&1 | grep -E ':[0-9]+:[0-9]+:')"
expect 'no bytes at all' '(standard input): byte 0: BADFORM (13): this is no stored form: a value is missing' "$("$yay" load - 2>&1 < /dev/null)"
expect 'a document is no stored form' 1 "$("$yay" load "$profile" 2>&1 | grep -c 'this is a document')"
expect 'a stored form is no document' 1 "$("$yay" show build/tablet.stored 2>&1 | grep -c 'this is a stored form')"
for file in examples/{release,installed,all-tablets,north,cold-store}.yay; do "$yay" store "$file" -o "build/$(basename "$file" .yay).stored"; done
expect 'a decision of stored forms' 0 "$("$yay" decide --stored build/release.stored build/installed.stored > /dev/null; echo $?)"
expect 'an overlay of stored forms' '' "$("$yay" overlay --stored build/{all-tablets,north,cold-store}.stored | diff build/laid.yay -)"
expect 'a clash of stored forms, by bytes' 'build/clash.stored: byte 10: CLASH (16): the key "warn" is an object here, and an array in build/warn.stored: byte 3' \
    "$(printf 'warn: []\n' | "$yay" store - -o build/warn.stored; printf 'x: {}\nwarn: {}\n' | "$yay" store - -o build/clash.stored; "$yay" overlay --stored build/warn.stored build/clash.stored 2>&1)"
expect 'a full disk is an error of store' 2 "$("$yay" store "$profile" > /dev/full 2> /dev/null; echo $?)"
expect 'a full disk leaves the stored file' "2 $(cksum < build/tablet.stored)" \
    "$(ulimit -f 0; trap '' XFSZ; "$yay" store "$profile" -o build/tablet.stored 2> /dev/null; echo $? "$(cksum < build/tablet.stored)")"
expect 'and nothing beside the stored file' '' "$(find build -maxdepth 1 -name '.tablet.stored*')"
expect 'a document refused leaves the stored file' "1 $(cksum < build/tablet.stored)" \
    "$(printf 'a: 1' | "$yay" store - -o build/tablet.stored 2> /dev/null; echo $? "$(cksum < build/tablet.stored)")"
if command -v script > /dev/null; then
    expect 'nothing to a terminal unasked' 2 "$(script -qec "$yay store $profile" /dev/null > build/script.out < /dev/null; echo $?)"
    expect 'and told what to do' 1 "$(grep -c 'insist with -o -' build/script.out)"
    expect 'a terminal that is named' 0 "$(script -qec "$yay store -o - $profile" /dev/null > /dev/null < /dev/null; echo $?)"
fi

# 128 KB of stack is enough for any document, with all that the command itself takes of it; the reader's part is YAY_STACK.
keys() { seq 0 $(($1 - 1)) | sed 's/.*/k&: &/'; }
keys 90 > build/few.yay
keys 1400 > build/some.yay
keys 2900 > build/long.yay
keys 75000 > build/longest.yay
(keys 75000; echo k0: 0) > build/again.yay
in_small_stack() { (ulimit -s 128; "$yay" check -q "build/$1.yay" 2> /dev/null; echo $?); }
for name in few some long longest list; do expect "the document $name in a stack of 128 KB" 0 "$(in_small_stack $name)"; done
written_in_small_stack() { (ulimit -s 128; "$yay" write "build/$1.yay" 2> /dev/null | cksum); }
for name in few some long longest; do
    expect "$name written in a stack of 128 KB" "$("$yay" write "build/$name.yay" | cksum)" "$(written_in_small_stack $name)"
    expect "$name stored in a stack of 128 KB" 0 "$(ulimit -s 128; "$yay" store "build/$name.yay" -o "build/$name.stored"; echo $?)"
    expect "$name loaded in a stack of 128 KB" 0 "$(ulimit -s 128; "$yay" check -q --stored "build/$name.stored"; echo $?)"
done
expect 'a repeated key in a stack of 128 KB' 1 "$(in_small_stack again)"

# Closed and full outputs. What was refused before or behind them is not lost.
expect 'a reader that stops early' 'object of 7 pairs' "$("$yay" show examples/tablet.yay 2>&1 | head -1)"
expect 'a full disk is an error' 2 "$("$yay" show examples/tablet.yay > /dev/full 2> /dev/null; echo $?)"
expect 'a full disk is an error of check' 2 "$("$yay" check build/bad.yay build/good.yay > /dev/full 2> /dev/null; echo $?)"
# shellcheck disable=SC2216
closed() {
    # Nobody reads: the pipe is closed before the command is started.
    { sleep 0.2; "$yay" check "$@"; } 2> /dev/null | true
    echo "${PIPESTATUS[0]}"
}
expect 'a refusal, then a closed pipe' 1 "$(closed build/bad.yay build/good.yay)"
expect 'a closed pipe, then a refusal' 1 "$(closed build/good.yay build/good.yay build/bad.yay)"
expect 'a closed pipe and a missing file' 2 "$(closed build/good.yay build/none.yay)"
expect 'a closed pipe and no refusal' 0 "$(closed build/good.yay build/good.yay)"
expect 'closed errors and a refusal' 1 "$({ sleep 0.2; "$yay" check build/bad.yay; } 2>&1 | true; echo "${PIPESTATUS[0]}")"
expect 'in the order of the files' 'build/good.yay: ok
build/bad.yay:1:2:
    1 |
      |
build/none.yay:
build/good.yay: ok
2 ok, 1 refused, 1 not read' "$("$yay" check build/good.yay build/bad.yay build/none.yay build/good.yay 2>&1 |
    sed -E 's/^yay: //; s/^(.*: ok|.*:2:|.*none.yay:|.*[|]).*/\1/')"

# On a terminal.
terminal() {
    if command -v script > /dev/null; then
        script -qec "$*" /dev/null < /dev/null
    else
        python3 -c 'import os, pty, sys; sys.exit(os.waitstatus_to_exitcode(pty.spawn(sys.argv[1:])))' "$@" < /dev/null
    fi | tr -d '\r'
}
expect 'no escape codes in a pipe' 0 "$("$yay" check build/bad.yay 2>&1 | grep -c $'\x1b')"
bold=$'\x1b[1m' red=$'\x1b[1;31m' off=$'\x1b[0m'
said="SYNTAX (3)$off: a line may not end in a space"
printf 'a: 1 \n' > build/space.yay
expect 'a terminal has colours, and the order of the files' "build/good.yay: ok, 1 rows, 1 bytes of text
${bold}build/space.yay:1:6:$off $red$said
    1 | a: 1␠⏎
      |      $red^$off
build/good.yay: ok, 1 rows, 1 bytes of text
2 ok, 1 refused" "$(terminal "$yay" check build/good.yay build/space.yay build/good.yay)"
expect 'none there with NO_COLOR' 0 "$(NO_COLOR=1 terminal "$yay" check build/bad.yay | grep -c $'\x1b')"
expect 'but what is said is there' 1 "$(NO_COLOR=1 terminal "$yay" check build/bad.yay | grep -c 'END (5): the last line')"

if command -v python3 > /dev/null; then
    for profile in examples/*.yay; do
        for how in json text exact; do
            expect "JSON of $profile, numbers as $how" ok \
                "$("$yay" json --numbers=$how "$profile" | python3 -c 'import json, sys; json.load(sys.stdin); print("ok")')"
        done
        expect "compact JSON of $profile" "$("$yay" json -c --numbers=text "$profile")" \
            "$("$yay" json --numbers=text "$profile" | python3 -c 'import json, sys
print(json.dumps(json.load(sys.stdin), separators=(",", ":"), ensure_ascii=False))')"
    done
fi
if [ "$(id -u)" != 0 ]; then
    touch build/closed.yay && chmod 000 build/closed.yay
    expect 'a file that may not be read' 2 "$("$yay" check build/closed.yay 2> /dev/null; echo $?)"
fi
tally try-command
