# By bytes, numbers, keys and without repeats.
cd /tmp
printf 'pear 3\napple 10\nfig 2\napple 1\n' >fruit
sort fruit
sort -r fruit
sort -k2n fruit
sort -k1,1 -k2nr fruit
sort -u -k1,1 fruit
printf 'b\na\n' | sort -c 2>&1 || echo "status $?"
printf '10\n9\n1e1\n' | sort -g
printf 'v1.10\nv1.9\n' | sort -V
sort -o fruit fruit && head -n 1 fruit
sort fruit | uniq -c | sed 's/^ *//'
