#!/bin/sh
# Makes a folder in which a package can be built: build.sh FOLDER. It has the shell and the commands of
# ../shell-and-commands, a C compiler (Debian's tcc, as cc) with musl, the library compat and their headers, make
# (Debian's GNU make), and the source of a package, Debian's zlib, in /zlib. /build builds that, and tests it. All is
# fetched and built once; the programs are kept where those of the shell are.
set -e
here=$(cd "$(dirname "$(readlink -f "$0")")" && pwd)
guest=$here/../guest
. "$guest/common.sh"
[ $# = 1 ] || fail "one folder is wanted, which is made" 2
[ ! -e "$1" ] || fail "$1 is there already" 2
need_for_musl
programs=$(guest_folder)/build
target=riscv64-linux-gnu-

# The compiler looks for its files where they will stand in the image.
build_tcc() {
    cd "$work"/tcc-*/
    patch -p1 <"$here/tcc.patch"
    cp "$here/tcc-config.h" config.h
    "$guest/cc" -O2 -w -s -o "$new/bin/tcc" tcc.c
    mkdir "$new/lib/tcc"
    cp -r include "$new/lib/tcc/include"
}

# Its own configure script is not in Debian's source, and make-config.h stands for it.
build_make() {
    cd "$work"/make-dfsg-*/
    cp "$here/make-config.h" src/config.h
    cp lib/glob.in.h lib/glob.h
    cp lib/fnmatch.in.h lib/fnmatch.h
    sources=$(ls src/*.c | grep -vE '/(amiga|remote-cstms|vms.*)\.c$')
    "$guest/cc" -O2 -w -s -DHAVE_CONFIG_H -Isrc -Ilib -DLIBDIR='"/lib"' -DINCLUDEDIR='"/include"' \
        -DLOCALEDIR='"/share/locale"' -o "$new/bin/make" $sources lib/glob.c lib/fnmatch.c
}

# The compiler inside knows no --wrap, so what ../guest/cc says to the linker is done in the library here, which has
# both compat and musl, and compat first. What programs of the compiler need of libgcc is its libtcc1.
build_library() {
    cd "$work"
    musl=$(guest_folder)/musl/lib
    cp "$musl/crt1.o" "$musl/crti.o" "$musl/crtn.o" "$new/lib"
    renames='' wraps=''
    for name in open openat sigaction signal; do
        renames="$renames --redefine-sym $name=__real_$name"
        wraps="$wraps --redefine-sym __wrap_$name=$name"
    done
    ${target}objcopy $renames "$musl/libc.a" musl.a
    ${target}objcopy $wraps "$musl/libcompat.a" compat.a
    printf '%s\n' "create $new/lib/libc.a" 'addlib compat.a' 'addlib musl.a' save end | ${target}ar -M
    for name in m pthread rt dl util; do
        cp "$musl/lib$name.a" "$new/lib"
    done
    ${target}objcopy -R .eh_frame -R .rela.eh_frame "$musl/libgcc.a" "$new/lib/tcc/libtcc1.a"
    cp -r "$musl/../include" "$new/include"
    rm "$new/include/linux" "$new/include/asm" "$new/include/asm-generic"
}

# What of the package is needed to build and test it.
copy_package() {
    cd "$work"/zlib-*/
    mkdir "$new/zlib"
    cp *.c *.h configure Makefile Makefile.in zconf.h.in zlib.map zlib.pc.in "$new/zlib"
    cp -r test "$new/zlib/test"
}

build() {
    new=$programs.new
    work=$(mktemp -d)
    trap 'rm -rf "$work" "$new"' EXIT
    rm -rf "$new"
    mkdir -p "$new/bin" "$new/lib"
    "$guest/source.sh" "$work" tcc make-dfsg zlib
    echo "$(basename "$0"): building tcc and make, once" >&2
    for step in build_tcc build_make build_library copy_package; do
        logged "$work/log" $step
    done
    cp "$here/inside" "$new/build"
    ln -s tcc "$new/bin/cc"
    printf '#!/bin/sh\nexec tcc -ar "$@"\n' >"$new/bin/ar"
    printf '#!/bin/sh\n' >"$new/bin/ranlib"
    chmod 755 "$new/bin/ar" "$new/bin/ranlib" "$new/build"
    rm -rf "$programs"
    mv "$new" "$programs"
    versions "$work" >"$programs.versions"
    echo "$sum" >"$programs.sum"
}

"$here/../shell-and-commands/build.sh" "$1"
# Built anew where anything of this has changed.
sum=$(cat "$0" "$here"/*.h "$here/tcc.patch" "$here/inside" "$guest/cc" "$guest/musl.sh" "$guest"/compat/*.[ch] | cksum)
[ "$(cat "$programs.sum" 2>/dev/null)" = "$sum" ] || build
cp -R "$programs/." "$1"
