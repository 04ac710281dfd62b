# Sourced by test, build, fuzz, bench, headread and grammar-edits/run: what they need and a machine may lack, told in one wording.

# need TOOL..: whether each is on the PATH; standard error says which is not, and what to do
need() {
    local tool kit
    for tool; do
        command -v "$tool" >/dev/null 2>&1 && continue
        case $tool in
        rt) kit="the Rattle toolchain" ;;
        cargo) kit="the Rust toolchain" ;;
        *) kit=$tool ;;
        esac
        echo "${0##*/}: $tool is not on the PATH: install $kit and call $0 again" >&2
        return 1
    done
}

# need_httparse: whether the crate that Headreader is held to is beside the repository, where we are
need_httparse() {
    [ -f ../shared/docs/src/Cargo.toml ] && return
    echo "${0##*/}: httparse 1.10.1 is not in ../shared/docs/src: put the unmodified crate there and call $0 again" >&2
    return 1
}

# writable FOLDER: makes it where it is missing; standard error says if nothing can be written there, and what to do
writable() {
    mkdir -p "$1" 2>/dev/null && [ -w "$1" ] && return
    echo "${0##*/}: $1 can't be written to: copy the repository to a folder of your own and call $0 there" >&2
    return 1
}

# install WHAT PACKAGE..: from Debian's packages; what is said is shown only where that fails
install() {
    local what=$1 said
    shift
    echo "installing $what"
    said=$({ apt-get update && apt-get install -y --no-install-recommends "$@"; } 2>&1 </dev/null) && return
    tail -n 10 <<<"$said" >&2
    echo "${0##*/}: $what is missing, and Debian's packages $* could not be installed: install it by hand and call $0 again" >&2
    return 1
}
