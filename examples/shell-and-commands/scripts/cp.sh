# cp -p, and copies of trees, with modes, links and the file names that are wanted.
mkdir -p /tmp/from/deep
cd /tmp
echo text >from/file
chmod 750 from/file
ln -s file from/link
ln from/file from/deep/hard
umask 077
cp from/file plain
cp -p from/file kept
stat -c '%a %n' plain kept
cp -a from whole
find whole | sort
readlink whole/link
stat -c '%h %n' whole/file
cp -r from copied && diff -r from copied && echo same
cp -p nothing there || echo "status $?"
