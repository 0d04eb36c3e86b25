#!/usr/bin/env bash
# Copies clpfd, clpwhere, clpcheck and clpcode, their man pages, completions, examples and library from this folder
# into PREFIX/bin and PREFIX/share: ./install.sh [PREFIX], without PREFIX into ~/.local.
set -u
[ $# -le 1 ] && [[ ${1-x} != -* && -n ${1-x} ]] || { echo "usage: ./install.sh [PREFIX]" >&2; exit 2; }
prefix=${1:-$HOME/.local}
case $prefix in /*) ;; *) prefix=$PWD/$prefix ;; esac
cd "$(dirname "$0")" || exit 1
{ mkdir -p "$prefix" && cp -r bin share "$prefix/"; } || { echo "install.sh: $prefix can't be written" >&2; exit 1; }
echo "To begin: $prefix/bin/clpfd < $prefix/share/clpfd/examples/send_more.pl"
