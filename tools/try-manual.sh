#!/usr/bin/env bash
# Runs each example of the manual and of README.md, a line `$ yay ..` and what it prints below, and lets man look for
# mistakes: `tools/try-manual.sh man/yay.1 build/yay`.
set -uo pipefail
manual=$1 built=$2
source tools/expect.sh
wanted='' line=''

yay() {
    "$built" "$@"
}

try() {
    [ -n "$line" ] || return
    expect "$line" "${wanted%$'\n'}" "$(eval "$line" 2>&1)"
}

# The examples between lines .EX and .EE, or ```console and ```; in the manual \- is a dash and \e a backslash.
try_examples() {
    local inside=0 text
    while IFS= read -r text; do
        case $text in
            .EX | '```console') inside=1 ;;
            .EE | '```') try; line=''; wanted=''; inside=0 ;;
            '$ '*) if [ $inside = 1 ]; then try; line=${text#'$ '}; wanted=''; fi ;;
            *) if [ $inside = 1 ]; then wanted+=$text$'\n'; fi ;;
        esac
    done
}
try_examples < <(sed -e 's/\\-/-/g' -e 's/\\e/\\/g' "$manual")
of_manual=$passed
expect 'examples of the manual' 1 "$((of_manual > 8))"
try_examples < README.md
expect 'seven examples of README.md' 7 "$((passed - of_manual - 1))"
sed -n '/^```yay$/,/^```$/{/^```/!p}' README.md > build/readme.yay
expect "README's profile" 'build/readme.yay: ok, 26 rows, 116 bytes of text' "$(yay check build/readme.yay 2>&1)"
expect "the manual's version" 1 "$(grep -c "^.TH YAY 1 .*\"$(yay --version)\"" "$manual")"

# The manual has every command, and below it every option of its page; -h and --help it has once for all.
plain=$(sed -E 's/\\-/-/g; s/\\f[A-Z]//g' "$manual")
commands=$(yay --help | sed -n 's/^  yay \([a-z]*\) .*/\1/p')
# The lines of a command's entry, which ends where another begins.
entry() {
    sed -n '/^.SH COMMANDS/,/^.SH REFUSALS/p' <<< "$plain" | awk -v name="$1" -v all="${commands//$'\n'/ }" '
        BEGIN { split(all, names) }
        { for (i in names) if ($0 ~ "^" names[i] "( [A-Z]|$)") inside = names[i] == name }
        inside'
}
for command in $commands; do
    expect "the manual has $command" 1 "$(($(grep -cE "^yay $command( |\$)" <<< "$plain") > 0))"
    expect "the manual tells of $command" 1 "$(($(entry "$command" | wc -l) > 1))"
    for option in $(yay "$command" --help | grep -oE '^  .{0,24}' | grep -oE -- '--?[a-z]+'); do
        case $option in -h | --help) where=$plain ;; *) where=$(entry "$command") ;; esac
        expect "the manual has $command $option" 1 "$(($(grep -cE -- "(^|[^-a-z])$option([^a-z]|\$)" <<< "$where") > 0))"
    done
done
if command -v man > /dev/null; then
    expect 'what man says of the manual' '' \
        "$(LC_ALL=C.UTF-8 MANROFFSEQ='' MANWIDTH=80 man --warnings -l "$manual" 2>&1 > /dev/null)"
fi
tally try-manual
