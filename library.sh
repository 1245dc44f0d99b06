#!/usr/bin/env bash
# Builds the static library for hosts in C and Rust, target/staticlib/libhost.a, which includes proving every crate that
# it rests on. The first run takes some minutes, in which it says on standard error what is being proved.
set -eu
script=library.sh
here=$(cd "$(dirname "${BASH_SOURCE[0]}")" && pwd -P)
. "$here/.ci/lock"
. "$here/.ci/proving"
usage='usage: ./library.sh             proves and builds target/staticlib/libhost.a
       ./library.sh --help | --version
It takes no other argument. Status 0: the library is built; 1: it was not built; 2: the arguments are wrong, or
something that is needed is not there.'
case $#-${1-} in
0-) ;;
1---help | 1--h) printf '%s\n' "$usage"; exit ;;
1---version) echo "saplull $(cat "$here/VERSION")"; exit ;;
*) printf '%s\n' "library.sh: it takes no argument, and was given: $*" "$usage" >&2; exit 2 ;;
esac
need_rt
make_work
take_lock "$here"
prove_library || { echo "library.sh: the library was not built; target/host_c.log says why" >&2; exit 1; }
