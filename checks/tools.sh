# To be sourced: the prover with its progress, and the tools that a machine may not have.

# prove COMMAND CRATE: `rt COMMAND` on a crate of this repository, which is the folder that we are in: run for a program, which then
# runs once on no input, lib for an archive. Each crate that has to be proved is said on standard error, and where one does not hold
# what rt said last. Status 0 only if rt has proved all of it, in this very run or before of the same files.
prove() {
    local line crate='' named='' verdict='' said=()
    while IFS= read -r line; do
        verdict=$line
        case $line in
        proved | failed | '' | 'statements '* | 'library '* | 'logic'* | 'axioms '* | 'struct '* | *': proved') ;; # what is so each time
        'rt: chose --jobs '*) crate=${line##* } ;;
        'checked '* | 'crate '*)
            if [ "$crate" != "$named" ] && [[ $line != *' checked=0' ]]; then echo "${0##*/}: proving $crate" >&2 && named=$crate; fi
            ;;
        *) said+=("$line") ;;
        esac
    done < <(cd "crates/$2" && rt "$1" </dev/null 2>&1 && printf '\nproved\n' || printf '\nfailed\n')
    if [ "$verdict" = proved ]; then return; fi
    printf '%s\n' "${said[@]}" | tail -n 20 >&2
    return 1
}

# have COMMAND PACKAGE..: whether the command is here; where it is not, `lack` says so. Nothing is installed unasked: with
# FREGNAUL_INSTALL=1 the packages are, Debian's.
have() {
    if command -v "$1" >/dev/null || { [ "${FREGNAUL_INSTALL:-}" = 1 ] && install_packages "${@:2}" && command -v "$1" >/dev/null; }; then return; fi
    lack="no $1 here (Debian: ${*:2})"
    return 1
}

install_packages() {
    mkdir -p target
    echo "${0##*/}: installing $*, as FREGNAUL_INSTALL=1 asks" >&2
    if { apt-get update && DEBIAN_FRONTEND=noninteractive apt-get install -y --no-install-recommends "$@"; } >>target/packages.log 2>&1; then return; fi
    echo "${0##*/}: $* not installed (target/packages.log has why)" >&2
    return 1
}

# How C and C++ are compiled for x86-64, each compiler with its packages, and what runs the program then.
if [ "$(uname -m)" = x86_64 ]; then
    c_compiler=(cc gcc libc6-dev) cpp_compiler=(c++ g++) linking=() runner=() where="x86-64"
else
    c_compiler=(x86_64-linux-gnu-gcc gcc-x86-64-linux-gnu libc6-dev-amd64-cross) cpp_compiler=(x86_64-linux-gnu-g++ g++-x86-64-linux-gnu)
    linking=(-static) runner=(qemu-x86_64) where="x86-64, emulated"
fi
have_runner() { [ ${#runner[@]} = 0 ] || have "${runner[0]}" qemu-user; }
