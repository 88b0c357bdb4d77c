# Sourced by the scripts beside it. Sets `rustc` and `cc`, the compilers with their target, and `emulator`, which runs what they make.
# The archive of the proved library holds x86-64 code, so everything here is built for x86-64. What is missing is installed from
# Debian's packages where that can be done: as root, with apt-get. Where it cannot, it is said what is missing and how to get it.
rustc=
cc=cc
emulator=

# Rust 1.85 or newer: the edition of these programs.
new_enough() { # RUSTC
    command -v "$1" > /dev/null && "$1" --version 2> /dev/null | awk '{ split($2, v, "."); exit !(v[1] > 1 || v[1] == 1 && v[2] + 0 >= 85) }'
}

missing() { # WHAT, PACKAGES...
    what=$1
    shift
    echo "rust/: $what is missing. On Debian, as root:" >&2
    [ "$(uname -m)" != aarch64 ] || echo "  dpkg --add-architecture amd64" >&2
    echo "  apt-get update" >&2
    echo "  apt-get install $*" >&2
    exit 2
}

install() { # WHAT, PACKAGES...
    needed=$1
    shift
    [ "$(id -u)" = 0 ] && command -v apt-get > /dev/null || missing "$needed" "$@"
    echo "rust/: $needed is missing; installing $* from Debian's packages" >&2
    {
        { [ "$(uname -m)" != aarch64 ] || dpkg --add-architecture amd64; } &&
            apt-get update && DEBIAN_FRONTEND=noninteractive apt-get install -y --no-install-recommends "$@"
    } > /dev/null 2>&1 || missing "$needed, and it could not be installed here," "$@"
}

case $(uname -s)/$(uname -m) in
Linux/x86_64)
    for tool in rustc /usr/bin/rustc; do
        [ -n "$rustc" ] || ! new_enough "$tool" || rustc=$tool
    done
    if [ -z "$rustc" ]; then
        # Debian 12 has its newer compiler under the name rustc-web.
        install "Rust 1.85 or newer" rustc-web gcc libc6-dev
        rustc=/usr/bin/rustc
        new_enough "$rustc" || missing "Rust 1.85 or newer" "rustc (Debian 13) or rustc-web (Debian 12)"
    fi
    command -v cc > /dev/null || install "a linker (cc)" gcc libc6-dev
    ;;
Linux/aarch64)
    # rustc-web: its library for x86-64 can be installed beside it.
    there() { [ -d "$(/usr/bin/rustc --print sysroot 2> /dev/null)/lib/rustlib/x86_64-unknown-linux-gnu" ]; }
    packages="rustc-web libstd-rust-web-dev:amd64 gcc-x86-64-linux-gnu libc6-dev:amd64 qemu-user"
    if ! new_enough /usr/bin/rustc || ! there || ! command -v x86_64-linux-gnu-gcc > /dev/null || ! command -v qemu-x86_64 > /dev/null; then
        # shellcheck disable=SC2086
        install "a Rust compiler for x86-64, its linker or the emulator" $packages
        # shellcheck disable=SC2086
        new_enough /usr/bin/rustc && there || missing "Rust 1.85 or newer with its library for x86-64" $packages
    fi
    # Linked statically: under the emulator a dynamic program crashes.
    rustc="/usr/bin/rustc --target x86_64-unknown-linux-gnu -C target-feature=+crt-static -C linker=x86_64-linux-gnu-gcc"
    cc="x86_64-linux-gnu-gcc -static"
    emulator=qemu-x86_64
    echo "rust/: on Arm, under qemu: a time is good only as a ratio of two programs run the same way" >&2
    ;;
*)
    echo "rust/: needs Linux on x86-64, or on Arm (aarch64) with an emulator; this is $(uname -s) on $(uname -m)" >&2
    exit 2
    ;;
esac
