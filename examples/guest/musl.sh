#!/bin/sh
# Builds musl, a C library for POSIX programs, for rv64im from Debian's source: musl.sh [FOLDER]. It makes FOLDER with
# include/ and lib/; without a FOLDER it makes the one in which ./cc looks for it.
set -e
here=$(cd "$(dirname "$(readlink -f "$0")")" && pwd)
. "$here/common.sh"
[ $# -le 1 ] || fail "at most one folder is wanted, which is made" 2
need_for_musl
folder=${1:-$(guest_folder)/musl}
[ ! -e "$folder" ] || fail "$folder is there already"
mkdir -p "$(dirname "$folder")"
folder=$(cd "$(dirname "$folder")" && pwd)/$(basename "$folder")
case $folder in *[[:space:]]*) fail "the path $folder has a blank, which musl's own build does not take" ;; esac
work=$(mktemp -d)
trap 'rm -rf "$work" "$folder.new"' EXIT
"$here/source.sh" "$work" musl
echo "$(basename "$0"): building musl, once" >&2
cd "$work"/musl-*/

# A process has one thread here, and a handler runs between two instructions: plain loads and stores do.
cat >arch/riscv64/atomic_arch.h <<'HEADER'
#define a_barrier a_barrier
static inline void a_barrier()
{
	__asm__ __volatile__ ("fence rw,rw" : : : "memory");
}

#define a_cas a_cas
static inline int a_cas(volatile int *p, int t, int s)
{
	int old = *p;
	if (old == t) *p = s;
	return old;
}

#define a_cas_p a_cas_p
static inline void *a_cas_p(volatile void *p, void *t, void *s)
{
	void *volatile *at = (void *volatile *)p;
	void *old = *at;
	if (old == t) *at = s;
	return old;
}
HEADER

build_musl() {
    CC="riscv64-linux-gnu-gcc -march=rv64im -mabi=lp64" CFLAGS="-O2 -fno-pie -mno-relax" LIBCC="$(libgcc)" \
        CROSS_COMPILE=riscv64-linux-gnu- ./configure --target=riscv64 --prefix="$folder.new" --disable-shared
    make "-j$(jobs)" install
}
logged "$work/log" build_musl

# The compiler's own functions (libgcc) are Debian's for rv64im. They lie beside the library, since whoever links with
# it needs them too.
riscv64-linux-gnu-strip --strip-debug -o "$folder.new/lib/libgcc.a" "$(libgcc)"
for headers in linux asm asm-generic; do
    ln -s "/usr/riscv64-linux-gnu/include/$headers" "$folder.new/include/$headers"
done
versions "$work" >"$folder.new/versions"
mv "$folder.new" "$folder"
