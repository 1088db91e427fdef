# Sourced by the project's scripts, with $home set: what it takes to build and run x86-64 programs here.
# The proved archive is made for x86-64. There everything is native; on an Arm machine a cross compiler builds and an emulator runs.
machine=$(uname -m)
least_rust=82
host_target=$home/host/target
export CARGO_TARGET_DIR="$host_target"

case $machine in
x86_64)
    runner=
    binary=$host_target/release/ravneket
    ;;
aarch64)
    # Debian's Rust has the standard library of other machines as a package; one from elsewhere on PATH has not.
    export RUSTC=/usr/bin/rustc RUSTDOC=/usr/bin/rustdoc
    export CARGO_BUILD_TARGET=x86_64-unknown-linux-gnu
    export CARGO_TARGET_X86_64_UNKNOWN_LINUX_GNU_LINKER=x86_64-linux-gnu-gcc
    runner=/usr/bin/qemu-x86_64
    export CARGO_TARGET_X86_64_UNKNOWN_LINUX_GNU_RUNNER=$runner
    export RAVNEKET_RUNNER=$runner RAVNEKET_CC=x86_64-linux-gnu-gcc
    binary=$host_target/$CARGO_BUILD_TARGET/release/ravneket
    ;;
*)
    echo "ravneket: this machine is $machine; the proved code is made for x86_64, and only x86_64 and aarch64 are set up" >&2
    exit 3
    ;;
esac

# Is there a Rust that is new enough, and does it have the library for x86-64?
has_rust() {
    command -v cargo >/dev/null 2>&1 || return 1
    rustc=${RUSTC:-rustc}
    command -v "$rustc" >/dev/null 2>&1 || return 1
    minor=$("$rustc" --version 2>/dev/null | sed -n 's/^rustc 1\.\([0-9]*\)\..*/\1/p')
    [ -n "$minor" ] && [ "$minor" -ge "$least_rust" ] || return 1
    sysroot=$("$rustc" --print sysroot 2>/dev/null) || return 1
    ls "$sysroot"/lib/rustlib/x86_64-unknown-linux-gnu/lib/libstd-* >/dev/null 2>&1
}

has_tools() {
    has_rust || return 1
    if [ "$machine" = aarch64 ]; then
        command -v x86_64-linux-gnu-gcc >/dev/null 2>&1 && [ -x "$runner" ]
    else
        command -v cc >/dev/null 2>&1
    fi
}
