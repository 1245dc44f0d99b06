#!/usr/bin/env bash
# Builds the tool `bundle` and runs it: a bundle's text form to bytes and back, and any bytes shown entry by entry:
#     ./bundle.sh pack FILE.page > FILE.bundle
#     ./bundle.sh unpack FILE.bundle > FILE.page
#     ./bundle.sh show FILE.bundle
# And asks the proved library, which the first run proves and builds, which seat acked two slips:
#     ./bundle.sh evidence FIRST.bundle SECOND.bundle [ACCOUNT NUMBER VALUE RECIPIENT]
# `-` in the place of a file is standard input. Every other argument goes to the tool, --help and --version too.
set -eu
script=bundle.sh
here=$(cd "$(dirname "${BASH_SOURCE[0]}")" && pwd -P)
. "$here/.ci/lock"
. "$here/.ci/proving"
programs=$here/target/rust/release

# The tools do not notice a stream that is closed: they would write nowhere, or read nothing.
refuse_closed() { # STREAM NAME WHAT-TO-DO
    [ ! -e "/dev/fd/$1" ] || return 0
    echo "bundle.sh: $2 is closed; $3" >&2
    exit 1
}
refuse_closed 1 'standard output' 'send it to a file, a pipe or a terminal'
case ${1-} in
pack | unpack | show) [ "${2--}" != - ] || refuse_closed 0 'standard input' 'name a file, or send one in' ;;
evidence) [[ ${2-} != - && ${3-} != - ]] || refuse_closed 0 'standard input' 'name a file, or send one in' ;;
esac

# Builds a tool, under the lock.
build() { # TOOL PACKAGE [OPTION]..
    take_lock "$here"
    [ -x "$programs/$1" ] ||
        echo "bundle.sh: building the tool from $2/, which takes some seconds on the first run" >&2
    if ! TMPDIR=$work in_group cargo build --release --offline --quiet --manifest-path "$here/$2/Cargo.toml" \
        --target-dir "$here/target/rust" "${@:3}" </dev/null; then
        echo "bundle.sh: the tool was not built; what cargo says above is why" >&2
        exit 1
    fi
}

# Builds the library, with the lock, where it is not there or what it is made of has changed since. What rt keeps in
# out/ of a crate is none of that.
build_library() {
    take_lock "$here"
    [ ! -f "$library" ] || [ "$here/crates.txt" -nt "$library" ] || [ -n "$(find "$here/crates" -mindepth 2 \
        -path "$here/crates/*/out" -prune -o -newer "$library" -print -quit)" ] || return 0
    need_rt
    echo "bundle.sh: proving and building the library, which takes half a minute where it is proved already" >&2
    prove_library || { echo "bundle.sh: the library was not built; target/host_c.log says why" >&2; exit 1; }
}

# The tool runs without the lock, as the file that it is here: another run may remove it meanwhile.
run() { # TOOL ARGUMENT..
    exec {program}<"$programs/$1"
    drop_lock
    rm -rf "$work"
    exec "/proc/self/fd/$program" "${@:2}"
}

misused() { # WHAT
    build bundle reference
    echo "bundle.sh: $1" >&2
    "$programs/bundle" --help >&2
    exit 2
}
is_number() { # NAME NUMBER MOST
    [[ $2 =~ ^0*([0-9]{1,10})$ && $((10#${BASH_REMATCH[1]})) -le $3 ]] || misused "$1 is \`$2\` and not 0 to $3"
}

# What is asked is looked at, and read, before anything is proved.
evidence() { # FIRST SECOND [ACCOUNT NUMBER VALUE RECIPIENT]
    local ruled=("${@:3}") first second
    [ $# -eq 2 ] || [ $# -eq 6 ] ||
        misused "evidence takes two bundles, or two and the four numbers of the slip that was ruled, and these are $#"
    [ "$1" != - ] || [ "$2" != - ] || misused "FIRST and SECOND are both -, and standard input is one bundle"
    [ $# -eq 6 ] || ruled=(0 0 0 0)
    is_number ACCOUNT "${ruled[0]}" 255
    is_number NUMBER "${ruled[1]}" 4294967295
    is_number VALUE "${ruled[2]}" 4294967295
    is_number RECIPIENT "${ruled[3]}" 255
    read_bundle "$1" "$work/first" || exit 1
    read_bundle "$2" "$work/second" || exit 1
    build_library
    build examples/evidence saplull --example evidence
    exec {first}<"$work/first" {second}<"$work/second"
    run examples/evidence "$(called "$1")" "/proc/self/fd/$first" "$(called "$2")" "/proc/self/fd/$second" "${ruled[@]}"
}

if ! command -v cargo >/dev/null && command -v apt-get >/dev/null; then
    echo "bundle.sh: installing cargo, which builds the tool" >&2
    in_group apt-get install -y -q cargo </dev/null >/dev/null 2>&1 || true
fi
if ! command -v cargo >/dev/null; then
    echo "bundle.sh: cargo, which builds the tool, is not on the PATH and could not be installed;" \
        "install it, and run this again" >&2
    exit 2
fi
make_work
[ "${1-}" != evidence ] || evidence "${@:2}"
build bundle reference
run bundle "$@"
