#!/usr/bin/env bash
# Builds all that the benchmark needs, and runs it: `daybook` against the second program, in instructions and in time
# per message, the writer of bundles, in time, one call on a held book through the library, in both, a book saved and
# loaded, and the join of two bundles, in instructions and in time per pair of acks. It fails where `daybook` or the
# join takes more than 0.8 times the instructions.
set -eu
script=bench.sh
cd -P "$(dirname "${BASH_SOURCE[0]}")"
here=$PWD
. .ci/lock
. .ci/proving
usage='usage: ./bench.sh             how fast daybook and the library are, beside the second program
       ./bench.sh --help
It takes no other argument. It proves and builds what it measures; what it measures is on standard output.
Status 0: measured; 1: something was not built, or daybook or the join of two bundles takes more than 0.8 times the
instructions; 2: the arguments are wrong, or something that is needed is not there.'
case $#-${1-} in
0-) ;;
1---help | 1--h) printf '%s\n' "$usage"; exit ;;
*) printf '%s\n' "bench.sh: it takes no argument, and was given: $*" "$usage" >&2; exit 2 ;;
esac

need_rt
for tool in cargo valgrind; do
    if ! command -v "$tool" >/dev/null && command -v apt-get >/dev/null; then
        echo "bench.sh: installing $tool" >&2
        in_group apt-get install -y -q "$tool" </dev/null >/dev/null 2>&1 || true
    fi
    command -v "$tool" >/dev/null ||
        { echo "bench.sh: $tool is not on the PATH and could not be installed; install it, and run this again" >&2
          exit 2; }
done
under_lock "$PWD" bench.sh

make_work
echo "bench.sh: proving daybook and the library, which takes some minutes where they are not proved yet" >&2
if ! prove run daybook || ! prove_library; then
    echo "bench.sh: daybook or the library was not built; target/daybook.log and target/host_c.log say why" >&2
    exit 1
fi
echo "bench.sh: building the second program and the benchmark" >&2
for package in reference trials; do
    cargo build --release --offline --quiet --manifest-path "$package/Cargo.toml" --target-dir target/rust ||
        { echo "bench.sh: $package/ was not built; what cargo says above is why" >&2; exit 1; }
done
echo "bench.sh: measuring" >&2
exec target/rust/release/bench --daybook crates/daybook/out/daybook --reference target/rust/release/reference
