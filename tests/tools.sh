# Read by scripts of tests and bench, which set `here`, the folder tests, and `name`, their own.

fail() {
    printf '%s: %s\n' "$name" "$*" >&2
    exit 1
}

# Builds the comparison. cargo is taken from the path, from its usual home, or from Debian's
# packages.
build_compare() {
    if ! command -v cargo >/dev/null; then
        PATH=${CARGO_HOME:-${HOME:-$(getent passwd "$(id -u)" | cut -d : -f 6)}/.cargo}/bin:$PATH
    fi
    command -v cargo >/dev/null || apt-get -qq -y install cargo >/dev/null 2>&1 || fail "there is no cargo, and it can't be installed"
    (cd "$here" && cargo build --release --offline --locked --quiet) || fail "the comparison does not build"
    compare=$here/target/release/compare
}

# Programs are for x86-64; on another processor they run under the emulator, loader and libraries of
# the kit that the command rt belongs to. `emulator` is empty where none is needed.
find_emulator() {
    emulator=
    case $(uname -m) in
    x86_64 | amd64) return ;;
    esac
    rt=$(command -v rt) || fail "there is no rt, and so no emulator"
    kit=${RATTLE_HOME:-$(dirname "$(dirname "$(readlink -f "$rt")")")}
    tools=$kit/on/$(uname -m)/toolchain
    libraries=$tools/lib
    loader=$libraries/ld-linux-x86-64.so.2
    emulator=$tools/bin/qemu-x86_64
    [ -x "$emulator" ] || fail "the kit of rt has no emulator"
    for word in $(env | sed -n 's/^\(QEMU_[A-Za-z0-9_]*\)=.*/\1/p'); do unset "$word"; done
}

# compile_for_emulator LEVEL FILE OBJECT WORD..: compiles C for x86-64 on another processor, by the
# kit's clang. The folders of headers are those that the machine's compiler names, one to a line,
# each after a blank.
compile_for_emulator() {
    headers=$(cc -Wp,-v -E - </dev/null 2>&1 >/dev/null | sed -n 's/^ [/]/-isystem &/p')
    [ -n "$headers" ] || fail "cc names no folder of headers"
    level=$1 from=$2 object=$3
    shift 3
    # shellcheck disable=SC2086
    "$tools/bin/clang" --target=x86_64-linux-gnu "$level" -fPIC -w $headers "$@" -c "$from" -o "$object"
}

# link_for_emulator PROGRAM FILE..: links objects and archives with the kit's C library.
link_for_emulator() {
    linked=$1
    shift
    "$tools/bin/ld.lld" -pie -dynamic-linker "$loader" -o "$linked" "$libraries/Scrt1.o" "$libraries/crti.o" "$libraries/crtbeginS.o" \
        "$@" "$libraries/libc.so.6" "$libraries/libc_nonshared.a" "$libraries/libgcc.a" "$libraries/crtendS.o" "$libraries/crtn.o"
}
