# To be sourced: the archive and a Rust compiler for x86-64, on either processor. Exit status 3 says that this machine
# cannot do it, after one plain line why. Nothing is installed unasked (checks/tools.sh).
#   rust_for_x86_64 sets RUSTC_X86_64 (compiler and its arguments) and RUNNER_X86_64 (what runs a program, empty on x86-64).
source checks/tools.sh

cannot() {
    echo "$(basename "$(dirname "${BASH_SOURCE[-1]}")"): not run, $1"
    exit 3
}

archive() {
    command -v rt >/dev/null || cannot "no Rattle toolchain here to build the archive"
    ./archive --fresh || ./archive >&2
}

# The folder of the Rust's own files; none of them is in this repository.
rust_source() {
    local folder=${FREGNAUL_RUST:-../shared/docs/src/src}
    [ -f "$folder/ring/root.rs" ] || cannot "no source of the Rust here"
    FREGNAUL_RUST=$(cd "$folder" && pwd)
    export FREGNAUL_RUST
}

# On another processor the compiler is Debian's, which has the x86-64 standard library as a package.
debian_packages_for_x86_64() {
    local packages=(rustc cargo libstd-rust-dev:amd64 gcc-x86-64-linux-gnu libc6-dev-amd64-cross qemu-user)
    if ! dpkg -s "${packages[@]}" >/dev/null 2>&1; then
        [ "${FREGNAUL_INSTALL:-}" = 1 ] || cannot "no Rust for x86-64 here (Debian: ${packages[*]})"
        { dpkg --add-architecture amd64 && install_packages "${packages[@]}"; } || cannot "Debian's packages for x86-64 cannot be installed here"
    fi
}

rust_for_x86_64() {
    if [ "$(uname -m)" = x86_64 ]; then
        have rustc rustc || cannot "$lack"
        RUSTC_X86_64=(rustc)
    else
        debian_packages_for_x86_64
        RUSTC_X86_64=(/usr/bin/rustc --target x86_64-unknown-linux-gnu -C linker=x86_64-linux-gnu-gcc)
    fi
    RUNNER_X86_64=("${runner[@]}")
}
