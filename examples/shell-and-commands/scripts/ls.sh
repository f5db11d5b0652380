# ls -l: kinds, modes, links, owners, sizes and times.
mkdir -p /tmp/l/dir
cd /tmp/l
printf '12345' >file
chmod 4755 file
ln -s file link
ln file other
: >.hidden
chmod 1777 dir
ls -l
ls -la | tail -n +2 | awk '{ print $1, $NF }'
ls -1
ls -F
ls -ln file | awk '{ print $2, $3, $4, $5 }'
ls -S | head -n 1
ls -d dir
ls nothing || echo "status $?"
