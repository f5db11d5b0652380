# Each of the other commands once, and what a shell does by itself.
cd /tmp
say() {
    echo "== $*"
}
printf 'one two\nthree\nthree\n' >f
printf 'alpha\nbeta\n' >g

say texts
cut -d' ' -f1 f; head -n 1 f; tail -n 1 f; tac f; rev g; nl g; fold -w 3 f | head -n 2; wc f; uniq -c f
comm f g; paste f f; tr a-z A-Z <g; printf 'a\tb\n' | expand | unexpand -a; echo t | tee u; cat u; yes | head -n 2
grep -c three f; egrep 'o|e' g; fgrep two f; split -l 1 f s.; ls s.*; strings f; seq 1 2 5; shuf -e a b c | wc -l

say bytes
od -c g; hexdump -C g; hd g | head -n 1; xxd g; cmp f g; diff -u f g | tail -n +3; printf '%s %d %.2f\n' a 3 1.5
printf 'a\r\n' >w; dos2unix w; od -An -c w; unix2dos w; od -An -c w; ascii | head -n 1 | cut -c 1-7
printf 'a\n' >p; printf -- '--- p\n+++ p\n@@ -1 +1 @@\n-a\n+b\n' | patch p; cat p; printf '1p\nq\n' | ed f

say sums
cksum f; sum f; md5sum f; sha1sum f; sha256sum f >s; sha256sum -c s; sha512sum f | cut -c 1-16

say codes
base32 f | base32 -d | cmp - f; base64 f | base64 -d | cmp - f; uuencode f name | uudecode -o v; cmp v f

say archives
bzip2 -c f | bunzip2 | cmp - f; bzip2 -c f >f.bz2; bzcat f.bz2 | head -n 1
gzip -c f | gunzip | cmp - f; gzip -c f >f.gz; zcat f.gz | head -n 1; echo f | cpio -o -H newc 2>/dev/null | cpio -t
base64 -d >x.xz <<'XZ'
/Td6WFoAAATm1rRGAgAhARYAAAB0L+WjAQAMcGFja2VkIGJ5IHh6CgAAAADfMTtKD7BhcwABJQ1x
GcS2H7bzfQEAAAAABFla
XZ
xzcat x.xz; unxz -c x.xz; base64 -d >a.zip <<'ZIP'
UEsDBBQAAAAIAAAAIShvMCZWDQAAAEAAAAAEAAAAZmlsZavKLChITVGoIpPiAgBQSwECFAMUAAAA
CAAAACEobzAmVg0AAABAAAAABAAAAAAAAAAAAAAAgAEAAAAAZmlsZVBLBQYAAAAAAQABADIAAAAv
AAAAAAA=
ZIP
unzip -p a.zip

say files
mkdir -p d/e; rmdir d/e d
install -m 711 f inst; stat -c '%a %s' inst; chmod 600 f; chgrp 0 f; chown 0:0 f; stat -c %a f
ln -s f soft; link f hard; readlink soft; readlink -f soft; realpath soft; unlink hard; mv inst moved; du moved
truncate -s 5 u; wc -c u; dd if=f of=h bs=4 count=2 2>/dev/null; wc -c h; sync; fsync f; rm h
made=$(mktemp /tmp/made.XXXXXX); test -f "$made" && rm "$made"; basename /a/b.c .c; dirname /a/b.c

say numbers
expr 2 + 3; expr abc : 'a\(.*\)'; echo '2^10 + 1.5' | bc; echo '2 3 + p' | dc; factor 60; cal 1 2000 | head -n 2

say machine
date; date -u -d @86400 +%Y-%m-%dT%H:%M:%S; sleep 100; date; uname -a; hostname; id; groups; whoami; tty; pwd; which ls
LOGNAME=root logname; env A=1 printenv A; nice printf 'nice\n'; nohup true; test -x f && [ -s f ] && echo yes
echo a b | xargs -n 1 echo; echo 1 2 | xargs -I{} echo '<{}>'

say commands that a shell has too
env echo echo; env printf '%s\n' printf; env pwd; env true && echo true; env false || echo false
env test -d /tmp && env [ a = a ] && env [[ a = a ]] && echo test

say shell
umask 077; : >m; stat -c %a m; set -- -a -b v; while getopts ab: o; do echo "$o$OPTARG"; done
cat <<HERE
$((1 + 2)) of $#
HERE
case abc in a*) echo begins with a ;; esac; v=a.b.c; echo "${v%.*} ${v##*.} ${#v} ${none:-default}"
ulimit -n; times | head -n 1; (exit 5) || echo "code $?"; f() { local v=2; return $v; }; f; echo $?; echo $v
eval 'echo evaluated'; true && false || echo no; trap 'echo at the end' EXIT; command -v sh; type cat
exec 3>three; echo to three >&3; cat three
