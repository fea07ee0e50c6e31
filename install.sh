#!/bin/sh
# Installs the proved program, its man page, completions, the list library, the tools and the user's documents.
#
#   ./install.sh [PREFIX]     to PREFIX (where none is given /usr/local), under $DESTDIR if that is set
#   ./install.sh --tar FILE   packs the same files with VERSION (the toolchain and the commit) into FILE
#
# The program must have been proved: `./andprolog --prove` or `rt ci` does it.
set -eu
from=$PWD
cd "$(dirname "$0")"
program=crates/andprolog/out/andprolog

usage() { sed -n '2,7s/^# \{0,1\}//p' "$(basename "$0")"; }

# absolute PATH: the path as it was meant where this was called.
absolute() {
    case $1 in
        /*) echo "$1" ;;
        *) echo "$from/$1" ;;
    esac
}

# version: what was proved with, and which commit this is.
version() {
    rt version 2> /dev/null || echo 'toolchain unknown'
    git describe --always --abbrev=40 --dirty 2> /dev/null | sed 's/^/commit /' | grep . || echo 'commit unknown'
}

# must_be_proved: ends where there is no proved program, or a source is newer.
must_be_proved() {
    [ -x "$program" ] || { echo "install: there is no $program; run './andprolog --prove' first" >&2; exit 1; }
    [ -z "$(find crates.txt crates/*/src crates/*/specs crates/*/proofs -newer "$program" -type f -print 2> /dev/null | head -n 1)" ] ||
        { echo "install: a source is newer than $program; run './andprolog --prove' again" >&2; exit 1; }
}

# put_into ROOT: copies the files under it.
put_into() {
    share=$1/share/andprolog
    install -d "$1/bin" "$1/share/man/man1" "$share/lib" "$share/doc" "$1/share/bash-completion/completions" "$1/share/zsh/site-functions"
    install -m 755 "$program" "$1/bin/andprolog"
    for tool in tools/andprolog-*; do install -m 755 "$tool" "$1/bin/"; done
    install -m 644 tools/andprolog_text.py "$1/bin/"
    install -m 644 man/andprolog.1 "$1/share/man/man1/"
    install -m 644 completions/andprolog.bash "$1/share/bash-completion/completions/andprolog"
    install -m 644 completions/_andprolog "$1/share/zsh/site-functions/_andprolog"
    install -m 644 lib/*.pl "$share/lib/"
    install -m 644 docs/LANGUAGE.md docs/GUARANTEES.md docs/EDITORS.md docs/CLUSTER.md "$share/doc/"
    install -m 644 LICENSE "$share/"
    version > "$share/VERSION"
}

case "${1-}" in
    -h | --help) usage ;;
    --tar)
        [ $# -eq 2 ] || { usage >&2; exit 2; }
        must_be_proved
        room=$(mktemp -d)
        trap 'rm -rf "$room"' EXIT
        put_into "$room/andprolog"
        cp "$room/andprolog/share/andprolog/VERSION" "$room/andprolog/VERSION"
        tar -C "$room" --owner=0 --group=0 -czf "$(absolute "$2")" andprolog
        ;;
    -*) usage >&2; exit 2 ;;
    *)
        [ $# -le 1 ] || { usage >&2; exit 2; }
        must_be_proved
        put_into "${DESTDIR-}$(absolute "${1-/usr/local}")"
        ;;
esac
