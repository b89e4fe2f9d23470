# What tests/run and bench/run need of the host, x86-64 or Arm. Sourced, with $root set and $0 the script's own name.
# Rattle compiles for x86-64: on Arm the C side is cross-compiled and run under qemu-user.

say() { printf '%s\n' "$*"; }
die() { printf '%s: %s\n' "${0##*/}" "$*" >&2; exit 2; }

install='' missing=''

# want PACKAGE: notes it as missing.
want() { case " $missing " in *" $1 "*) ;; *) missing="$missing $1" ;; esac; }

# need COMMAND PACKAGE: wants a package where its command is missing.
need() { command -v "$1" >/dev/null 2>&1 || want "$2"; }

# A container of a CI is thrown away after the run; on any other host the user has to say --install.
may_install() {
    [ -z "$install" ] || return 0
    [ -n "${CI:-}" ] && [ "$(id -u)" = 0 ] || return 1
    [ -e /.dockerenv ] || [ -n "${container:-}" ] || grep -qsE 'docker|containerd|kubepods|libpod|lxc' /proc/1/cgroup
}

# Installs what is wanted, or says how and stops.
install_missing() {
    [ -n "$missing" ] || return 0
    line="apt-get update && apt-get install -y --no-install-recommends$missing"
    may_install || die "missing:$missing. $0 --install installs it, as root, by
    $line"
    [ "$(id -u)" = 0 ] || die "missing:$missing. Only root can install it, by
    $line"
    say "installing$missing, by $line" >&2
    DEBIAN_FRONTEND=noninteractive sh -c "$line" >/dev/null || die "cannot install$missing"
}

# A C compiler for x86-64, and what runs its programs.
need_c() {
    need gcc gcc
    case $(uname -m) in
    x86_64)
        cross='' run_x86=''
        [ -e /usr/include/stdio.h ] || want libc6-dev ;;
    aarch64)
        cross=x86_64-linux-gnu- run_x86=qemu-x86_64
        need x86_64-linux-gnu-gcc gcc-x86-64-linux-gnu
        [ -e /usr/x86_64-linux-gnu/lib/libc.a ] || want libc6-dev-amd64-cross
        need qemu-x86_64 qemu-user ;;
    *) die "x86-64 or aarch64 is wanted, not $(uname -m)" ;;
    esac
}

# The visit around rows, which the library has not yet: FOLDGREBE_VISIT_AROUND=1 tries it too, of a library that is given.
around=${FOLDGREBE_VISIT_AROUND:+-DFOLDGREBE_VISIT_AROUND}

# compile OUT FLAGS AND FILES..: an x86-64 program that needs nothing beside it.
compile() {
    program=$1
    shift
    "${cross}gcc" -std=gnu11 -Wall -Wextra $around -static -I"$root/include" -o "$program" "$@" || die "cannot build ${program##*/}"
}

# The library, from --library or by rt: of the static library foldgrebe_c, for any x86-64, under the name that C programs link.
find_library() {
    if [ -z "$library" ]; then
        library=$root/target/staticlib/libfoldgrebe.a
        command -v rt >/dev/null 2>&1 || die "rt is not on the PATH; or give --library FILE.a"
        said=$(cd "$root/crates/foldgrebe_c" && rt lib --cpu x86-64 2>&1) || die "rt lib in crates/foldgrebe_c failed; or give --library FILE.a
$said"
        mkdir -p "$root/target/staticlib" && cp "$root/crates/foldgrebe_c/out/libfoldgrebe_c.a" "$library" || die "cannot write $library"
    fi
    [ -e "$library" ] || die "no such library: $library"
}
