#!/usr/bin/env bash
# Installs command, library, headers, manual and completions: `tools/install.sh COMMAND LIBRARY DESTDIR PREFIX`.
set -euo pipefail
command=$1 library=$2 prefix=$4
to=$3$prefix

# put MODE FILE.. FOLDER
put() {
    local mode=$1 folder=${*: -1}
    install -d "$to/$folder"
    install -m "$mode" "${@:2:$#-2}" "$to/$folder/"
}

put 755 "$command" bin
put 644 "$library" lib
put 644 include/yay.h include/yay_help.h include
put 644 man/yay.1 share/man/man1
put 644 tools/completions/_yay share/zsh/site-functions
install -D -m 644 tools/completions/yay.bash "$to/share/bash-completion/completions/yay"
install -d "$to/lib/pkgconfig"
cat > "$to/lib/pkgconfig/yay.pc" << END
prefix=$prefix
libdir=\${prefix}/lib
includedir=\${prefix}/include

Name: yay
Description: A reader and writer of YAY documents, a decision on upgrades, an overlay of profiles and a stored form, proved in Rattle
Version: $("$command" --version | cut -d' ' -f2)
Libs: -L\${libdir} -lyay
Cflags: -I\${includedir}
END
echo "installed below $to"
