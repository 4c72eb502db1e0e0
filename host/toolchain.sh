# Sourced by the scripts: how to build and run what links libhost.a, which is x86-64 code.
# Sets cc, cxx, emulator and x86_folder (where cargo puts programs), and defines x86_cargo.
# Ends with status 3 where the tools are missing and cannot be installed.
x86_target=x86_64-unknown-linux-gnu

# On another processor: cross compilers, an emulator, and Debian's Rust, which has an x86-64 standard library.
install_cross_tools() {
    tools="gcc-x86-64-linux-gnu g++-x86-64-linux-gnu qemu-user rustc cargo libstd-rust-dev:amd64"
    [ -x /usr/bin/x86_64-linux-gnu-gcc ] && [ -x /usr/bin/x86_64-linux-gnu-g++ ] && [ -x /usr/bin/qemu-x86_64 ] &&
        [ -x /usr/bin/cargo ] && [ -d /usr/lib/rustlib/$x86_target ] && return
    echo "installing what x86-64 programs need here: $tools"
    { dpkg --add-architecture amd64 && apt-get update && apt-get install -y --no-install-recommends $tools; } >/dev/null 2>&1 || {
        echo "they could not be installed" >&2
        exit 3
    }
}

if [ "$(uname -m)" = x86_64 ]; then
    cc=gcc cxx=g++ emulator=
    x86_cargo() { cargo "$@"; }
    x86_folder=release
else
    install_cross_tools
    cc="x86_64-linux-gnu-gcc -static" cxx=x86_64-linux-gnu-g++ emulator=qemu-x86_64
    export RUSTC=/usr/bin/rustc
    export CARGO_BUILD_TARGET=$x86_target
    export CARGO_TARGET_X86_64_UNKNOWN_LINUX_GNU_LINKER=x86_64-linux-gnu-gcc
    export CARGO_TARGET_X86_64_UNKNOWN_LINUX_GNU_RUNNER=$emulator
    x86_cargo() { /usr/bin/cargo "$@"; }
    x86_folder=$x86_target/release
fi
