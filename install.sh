#!/bin/sh
# Installs crsreg.
#
# usage: ./install.sh [--list] [PREFIX]
#
# The default of PREFIX is /usr/local. If DESTDIR is set, all files go below that folder, as for a package. With --list it prints the path
# of each file that it installs: remove these to uninstall crsreg.
#
# Reads:  the program in CRSREG_PROGRAM. By default this is crsreg-static, which needs no C library, if the release is of these sources, and
#         otherwise the one that ./crsreg --which prints.
# Writes: the program, its manual pages, its completions, its notices and the scripts of share/, below PREFIX.
# Needs:  nothing else; the released program is for Linux on x86-64.
set -eu

# The lines above.
about() {
    sed -n '1d; /^#/!q; s/^# \{0,1\}//p' "$0"
}

case ${1-} in
--help | -h) about && exit ;;
--list) list=yes && shift ;;
*) list=no ;;
esac
case ${1-} in
-*) about | grep '^usage: ' >&2 && exit 2 ;;
esac
prefix=${1-/usr/local}
root=$(cd "$(dirname "$0")" && pwd)
release=$root/release/x86_64-linux-gnu

# Prints the path of the program to install by default.
default_program() {
    if [ "$(uname -sm)" = "Linux x86_64" ] && [ -x "$release/crsreg-static" ] &&
        [ "$(cat "$release/sources")" = "$("$root/release/digest")" ]; then
        echo "$release/crsreg-static"
    else
        "$root/crsreg" --which
    fi
}

if [ $list = no ]; then
    program=${CRSREG_PROGRAM:-$(default_program)}
    made=$(mktemp -d)
    trap 'rm -rf "$made"' EXIT
    for shell in bash fish zsh; do "$program" completions $shell >"$made/$shell"; done
fi

# put SOURCE PATH MODE: installs one file below the prefix.
put() {
    to=${DESTDIR-}$prefix/$2
    if [ $list = yes ]; then
        echo "$to"
    else
        mkdir -p "$(dirname "$to")" && cp "$1" "$to" && chmod "$3" "$to"
    fi
}

put "${program-}" bin/crsreg 755
for page in "$root"/share/man/*.[15]; do
    put "$page" "share/man/man${page##*.}/${page##*/}" 644
done
put "$release/notices" share/doc/crsreg/notices 644
put "${made-}/bash" share/bash-completion/completions/crsreg 644
put "${made-}/fish" share/fish/vendor_completions.d/crsreg.fish 644
put "${made-}/zsh" share/zsh/site-functions/_crsreg 644
for file in "$root"/share/*; do
    name=${file##*/}
    if [ -f "$file" ] && [ "$name" != deb ]; then
        if [ -x "$file" ]; then mode=755; else mode=644; fi
        put "$file" "share/crsreg/$name" $mode
    fi
done
