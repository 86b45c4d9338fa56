# Sourced by the scripts. `need COMMAND PACKAGE..` installs the packages by apt-get where the command is missing.
need() {
    local command=$1
    shift
    if command -v "$command" > /dev/null; then return; fi
    echo "no $command here: installing $*" >&2
    local as=
    if [ "$(id -u)" != 0 ]; then as=sudo; fi
    $as apt-get update -qq > /dev/null || true
    if ! DEBIAN_FRONTEND=noninteractive $as apt-get install -y -qq "$@" > /dev/null || ! command -v "$command" > /dev/null; then
        echo "cannot install $*: install $command by hand, and run this again" >&2
        exit 1
    fi
}

# Rust 1.85 or newer: Debian has it as rustc-web and cargo-web.
need_rust() { need cargo rustc-web cargo-web; need cc gcc libc6-dev; }

# Compilers whose code links with the archive, which is for x86-64: sets cc, cxx, and `on`, what a program is run by. Elsewhere that is a cross
# compiler and an emulator.
need_cc() {
    if [ "$(uname -m)" = x86_64 ]; then
        need cc gcc libc6-dev
        cc=${CC:-cc} cxx=${CXX:-c++} on=
    else
        need x86_64-linux-gnu-gcc gcc-x86-64-linux-gnu libc6-dev-amd64-cross
        need qemu-x86_64 qemu-user
        cc=x86_64-linux-gnu-gcc cxx=x86_64-linux-gnu-g++ on="qemu-x86_64 -L /usr/x86_64-linux-gnu"
    fi
}

# The same for cargo. Elsewhere than on x86-64 its standard library for x86_64-unknown-linux-gnu must be installed.
need_cargo() {
    need_rust
    need_cc
    if [ -n "$on" ]; then
        export CARGO_BUILD_TARGET=x86_64-unknown-linux-gnu
        export CARGO_TARGET_X86_64_UNKNOWN_LINUX_GNU_LINKER=$cc CARGO_TARGET_X86_64_UNKNOWN_LINUX_GNU_RUNNER=$on
    fi
}

# The proved static library, built by the kit where it is not there or is older than the sources that it is made of.
need_archive() {
    local archive=$1/target/staticlib/libashwoodrung.a newer
    newer=$(find "$1/crates" -path '*/src/*.rt' ! -path '*/lesson*' ! -path '*/test_*' -newer "$archive" -print -quit 2>&1 || true)
    if [ -z "$newer" ]; then return; fi
    command -v rt > /dev/null || { echo "no $archive and no rt to build it: the Rattle kit has rt" >&2; exit 1; }
    echo "building target/staticlib/libashwoodrung.a: tools/build.sh archive" >&2
    "$1/tools/build.sh" archive
}
