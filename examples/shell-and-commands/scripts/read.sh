# while read: from a file, from a pipe, in words, and in a subshell whose variables are lost.
cd /tmp
printf 'ann 3\nbob 4\nlast' >list
while read -r name count; do
    echo "$name has $count"
done <list
printf '1\n2\n3\n' | while read -r n; do
    echo $((n * n))
done
sum=0
seq 1 4 >numbers
while read -r n; do
    sum=$((sum + n))
done <numbers
echo "sum $sum"
printf ' a\\tb \n' | { IFS= read -r line; echo "[$line]"; }
printf 'a:b:c\n' | { IFS=: read -r first rest; echo "$first-$rest"; }
{ echo one & echo two & } | while read -r line; do
    echo "got $line"
done
