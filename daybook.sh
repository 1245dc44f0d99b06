#!/usr/bin/env bash
# Builds the program `daybook`, which includes proving every crate that it rests on, and runs it on a bundle. Its first
# run takes some minutes, in which it says on standard error what is being proved; a later one takes a second, and says
# nothing where nothing has changed.
set -eu
script=daybook.sh
here=$(cd "$(dirname "${BASH_SOURCE[0]}")" && pwd -P)
. "$here/.ci/lock"
. "$here/.ci/proving"
usage='usage: ./daybook.sh [BUNDLE]             what the seat replies to the bundle, line by line
       ./daybook.sh --help | --version
BUNDLE is a file; without it, or if it is -, the bundle is read from standard input.
Status 0: the text is written; 1: daybook was not built, or the text could not be written;
2: the arguments are wrong, the bundle cannot be read, or something that is needed is not there.
A bundle that is refused has the text "F code entry", with status 0; docs/FORMATS.md says what the lines mean.'

misused() { # WHAT
    printf '%s\n' "daybook.sh: $1" "$usage" >&2
    exit 2
}

[ $# -le 1 ] || misused "one bundle at a time, and these are $#: $*"
bundle=${1--}
case $bundle in
--help | -h) printf '%s\n' "$usage"; exit ;;
--version) echo "saplull $(cat "$here/VERSION")"; exit ;;
-?*) misused "$bundle is not an option" ;;
esac
[ $# -eq 1 ] || [ ! -t 0 ] || misused "no bundle is named, and standard input is a terminal"

# The bundle is read before anything is proved.
make_work
read_bundle "$bundle" "$work/bundle" || exit 2
need_rt

# The program runs without the lock, as a copy: another run may build it anew meanwhile.
take_lock "$here"
if ! prove run daybook || ! cp "$here/crates/daybook/out/daybook" "$work/daybook"; then
    echo "daybook.sh: daybook was not built; target/daybook.log says why" >&2
    exit 1
fi
drop_lock

# The program has no status of its own: what it says on standard error is what went wrong.
status=0
in_group "$work/daybook" <"$work/bundle" 2>"$work/said" || status=$?
if [ -s "$work/said" ]; then
    cat "$work/said" >&2 || true
    [ "$status" -ne 0 ] || status=1
fi
exit "$status"
