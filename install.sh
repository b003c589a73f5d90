#!/bin/sh
# Copies the programs that were built, and the manual pages, below a folder: install.sh PREFIX (as /usr/local, or $HOME/.local).
# A program that isn't built is named, with how to build it, and the exit status is 1 then.
set -eu

if [ $# -ne 1 ] || [ -z "$1" ]; then
    echo "usage: install.sh PREFIX" >&2
    exit 2
fi
prefix=$1
root=$(cd "$(dirname "$0")" && pwd)
missing=0

mkdir -p "$prefix/bin" "$prefix/share/man/man1"
for tool in adig ahost tns areplay acache; do
    program=$root/crates/$tool/out/$tool
    if [ -x "$program" ]; then
        install -m 755 "$program" "$prefix/bin/$tool"
        echo "$prefix/bin/$tool"
    else
        echo "install.sh: $tool isn't built: run (cd $root/crates/$tool && rt run), which proves it first" >&2
        missing=1
    fi
    install -m 644 "$root/docs/man/$tool.1" "$prefix/share/man/man1/$tool.1"
    echo "$prefix/share/man/man1/$tool.1"
done
exit $missing
