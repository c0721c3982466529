#!/usr/bin/env bash
# Installs into a folder of its own, and uses what is there as a newcomer would: `tools/try-install.sh FOLDER`.
set -uo pipefail
root=$PWD/$1
rm -rf "$root"
source tools/expect.sh

make --no-print-directory --silent install DESTDIR="$root" PREFIX=/usr > /dev/null
wanted='bin/yay 755
include/yay.h 644
include/yay_help.h 644
lib/libyay.a 644
lib/pkgconfig/yay.pc 644
share/bash-completion/completions/yay 644
share/man/man1/yay.1 644
share/zsh/site-functions/_yay 644'
expect 'what is installed' "$wanted" "$(cd "$root/usr" && find . -type f -printf '%P %m\n' | LC_ALL=C sort)"
yay=$root/usr/bin/yay
expect 'the installed command' stable "$("$yay" get examples/tablet.yay image-channel)"

# A program built by what pkg-config says; without it, by what the file has.
export PKG_CONFIG_PATH=$root/usr/lib/pkgconfig
pc=$(sed -e "s|^prefix=/usr$|prefix=$root/usr|" "$PKG_CONFIG_PATH/yay.pc")
if command -v pkg-config > /dev/null; then
    flags=$(pkg-config --define-variable=prefix="$root/usr" --cflags --libs yay)
    expect 'the version' "yay $(pkg-config --modversion yay)" "$("$yay" --version)"
else
    flags="-I$root/usr/include -L$root/usr/lib -lyay"
fi
expect 'the prefix of yay.pc' "prefix=$root/usr" "$(head -n 1 <<< "$pc")"
read -ra flags <<< "$flags"
cc -std=c11 c/example.c "${flags[@]}" -o "$root/example"
expect 'a program of the installed library' '' "$("$root/example" examples/tablet.yay | diff c/example.out -)"

# Completions of bash: what is offered behind these words.
# shellcheck source=/dev/null
source "$root/usr/share/bash-completion/completions/yay"
offered() {
    COMP_WORDS=("$@") COMP_CWORD=$(($# - 1)) COMPREPLY=()
    _yay
    echo "${COMPREPLY[*]}"
}
expect 'a command' 'check compare' "$(offered yay c)"
expect 'an option' '--json' "$(offered yay get --j)"
expect 'an option of show' '--places' "$(offered yay show --p)"
expect 'how numbers are written' 'text' "$(offered yay json --numbers = te)"
expect 'all of these' 'json text exact' "$(offered yay get --numbers =)"
expect 'an option of fmt' '--check' "$(offered yay fmt --c)"
expect 'an option of decide' '--installed=' "$(offered yay decide --i)"
expect 'an option of overlay' '--output=' "$(offered yay overlay --o)"
expect 'an option of store' '--output=' "$(offered yay store --o)"
expect 'a stored form' '--stored' "$(offered yay get --s)"
expect 'a file to write is left to bash' '' "$(offered yay write -o exa)"
expect 'files are left to bash' '' "$(offered yay show exa)"

# Both completions have every command, and every option that its page has.
zsh=$root/usr/share/zsh/site-functions/_yay
for command in $("$yay" --help | sed -n 's/^  yay \([a-z]*\) .*/\1/p'); do
    expect "bash: $command" "$command" "$(offered yay "$command")"
    expect "zsh: $command" 1 "$(grep -c "'$command:" "$zsh")"
    for option in $("$yay" "$command" --help | grep -oE '^  .{0,24}' | grep -oE -- '--?[a-z]+'); do
        expect "bash: $command $option" 1 "$(offered yay "$command" - | tr ' ' '\n' | grep -cxE -- "$option=?")"
        expect "zsh: $option" 1 "$(($(grep -cE -- "[{,' (]${option}[]=,}' [)]" "$zsh") > 0))"
    done
done
if command -v zsh > /dev/null; then expect 'zsh reads it' 0 "$(zsh -n "$zsh"; echo $?)"; fi
tally try-install
