# What the scripts of this folder and of its neighbours share. They read it by `.`.

# Modes are part of an image, so they are the same whoever calls.
umask 022

# Says why the script cannot go on, and ends it.
fail() {
    echo "$(basename "$0"): $1" >&2
    exit "${2:-1}"
}

# The folder in which lies what these scripts have built: DETTRACE_GUEST, or one beside the images of tools/run.
guest_folder() {
    echo "${DETTRACE_GUEST:-${XDG_CACHE_HOME:-$HOME/.cache}/dettrace/guest}"
}

# What a script ends with where the machine lacks a package, or the network.
LACKING=3

# need COMMAND=PACKAGE ..: ends the script where a command, or a file with a whole path, is missing, and says what is.
need() {
    missing=
    for pair in "$@"; do
        case $pair in
        /*) [ -e "${pair%%=*}" ] || missing="$missing ${pair#*=}" ;;
        *) command -v "${pair%%=*}" >/dev/null || missing="$missing ${pair#*=}" ;;
        esac
    done
    [ -z "$missing" ] || fail "packages of Debian are missing: apt-get install$missing" $LACKING
}

# The packages that all builds with musl take.
need_for_musl() {
    need cc=gcc /usr/include/stdio.h=libc6-dev make=make patch=patch bzip2=bzip2 xz=xz-utils dpkg-source=dpkg-dev \
        riscv64-linux-gnu-gcc=gcc-riscv64-linux-gnu riscv64-unknown-elf-gcc=gcc-riscv64-unknown-elf \
        /usr/riscv64-linux-gnu/include/linux/limits.h=linux-libc-dev-riscv64-cross
}

# Which versions a build was made of: the sources in this folder, and the compilers.
versions() {
    (cd "$1" && ls ./*.dsc | sed 's,^\./,,; s,\.dsc$,,; s,_, ,')
    dpkg-query -W -f '${Package} ${Version}\n' gcc-12-riscv64-linux-gnu binutils-riscv64-linux-gnu \
        gcc-riscv64-unknown-elf 2>/dev/null || true
}

# logged FILE FUNCTION: runs a function that ends at its first command that fails, with all that is written in a file.
# Where it fails, the end of that is shown, and the script ends.
logged() {
    set +e
    (set -e && "$2") >"$1" 2>&1
    status=$?
    set -e
    [ $status = 0 ] || {
        tail -n 20 "$1" >&2
        fail "$2 has failed"
    }
}

# How many jobs make may run at once: JOBS, or as many as there are processors.
jobs() {
    echo "${JOBS:-$(nproc)}"
}

# Debian's libgcc for rv64im.
libgcc() {
    riscv64-unknown-elf-gcc -march=rv64im -mabi=lp64 -print-libgcc-file-name
}
