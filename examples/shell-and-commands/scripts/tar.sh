# An archive is made, listed and taken apart, plain and packed, with owners and modes.
mkdir -p /tmp/tree/sub /tmp/out /tmp/out2 /tmp/out3
cd /tmp
echo one >tree/one
echo two >tree/sub/two
chmod 640 tree/one
ln -s sub/two tree/link
tar -cf a.tar tree
tar -tvf a.tar | sed 's/  */ /g'
tar -xf a.tar -C out
tar -xvpf a.tar -C out2 tree/sub
find out out2 | sort
cat out/tree/link
stat -c '%a' out/tree/one
tar -czf a.tgz tree && tar -xzf a.tgz -C out3 && diff -r tree out3/tree && echo same by gzip
tar -cjf a.tbz tree && tar -tjf a.tbz | tail -n 1
tar -C tree -cf - . | tar -xO -f - ./one
