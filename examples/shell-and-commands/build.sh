#!/bin/sh
# Makes a folder with a POSIX shell (Debian's dash) and the usual commands (Debian's BusyBox), to add files of one's own
# to and to run: build.sh FOLDER. It fetches the sources of Debian's packages and builds them with musl and the library
# compat, once; the programs are kept where those libraries are.
set -e
here=$(cd "$(dirname "$(readlink -f "$0")")" && pwd)
guest=$here/../guest
. "$guest/common.sh"
[ $# = 1 ] || fail "one folder is wanted, which is made" 2
[ ! -e "$1" ] || fail "$1 is there already" 2
need_for_musl
[ -e "$(guest_folder)/musl" ] || "$guest/musl.sh"
programs=$(guest_folder)/shell
target=riscv64-linux-gnu-

# Debian's changes to dash want automake, and are left out.
build_dash() {
    mkdir "$work/dash"
    cd "$work/dash"
    tar xf "$work"/dash_*.orig.tar.gz
    cd dash-*/
    ./configure CC="$guest/cc" CFLAGS=-O2 --host=riscv64-linux-musl --disable-lineno --disable-fnmatch --disable-glob
    make "-j$(jobs)"
    ${target}strip -o "$new/sh" src/dash
}

# The configuration is what stands in busybox.config, and nothing else.
build_busybox() {
    cd "$work"/busybox-*/
    export SOURCE_DATE_EPOCH=946684800
    make allnoconfig
    sed -n 's/^\(# \)\{0,1\}\(CONFIG_[A-Z0-9_]*\).*/^(# )?\2[= ]/p' "$here/busybox.config" >decided
    grep -vE -f decided .config >rest
    cat rest "$here/busybox.config" >.config
    yes '' | make oldconfig
    make "-j$(jobs)" CC="$guest/cc" AR=${target}ar NM=${target}nm STRIP=${target}strip OBJCOPY=${target}objcopy \
        busybox busybox.links
    cp busybox "$new"
    sed 's,.*/,,' busybox.links | sort >"$new/commands"
}

build() {
    new=$programs.new
    work=$(mktemp -d)
    trap 'rm -rf "$work" "$new"' EXIT
    rm -rf "$new"
    mkdir -p "$new"
    "$guest/source.sh" "$work" dash busybox
    echo "$(basename "$0"): building dash and BusyBox, once" >&2
    logged "$work/log" build_dash
    logged "$work/log" build_busybox
    versions "$work" >"$new/versions"
    echo "$sum" >"$new/sum"
    rm -rf "$programs"
    mv "$new" "$programs"
}

# Built anew where anything of this has changed.
sum=$(cat "$0" "$here/busybox.config" "$guest/cc" "$guest/musl.sh" "$guest"/compat/*.[ch] | cksum)
[ "$(cat "$programs/sum" 2>/dev/null)" = "$sum" ] || build

mkdir -p "$1/bin" "$1/dev" "$1/etc" "$1/tmp" "$1/usr"
cp "$programs/sh" "$programs/busybox" "$1/bin"
while read -r command; do
    ln -s busybox "$1/bin/$command"
done <"$programs/commands"
ln -s ../bin "$1/usr/bin"
: >"$1/dev/null"
echo 'root:x:0:0:root:/:/bin/sh' >"$1/etc/passwd"
echo 'root:x:0:' >"$1/etc/group"
