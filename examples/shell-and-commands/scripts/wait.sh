# Children in the background: their codes, their order, and signals.
cd /tmp
(exit 3) &
wait $!
echo "code $?"
for i in 1 2 3; do
    sh -c "echo $i >done.$i; exit $i" &
done
wait
echo "code $?"
cat done.1 done.2 done.3
(sleep 1; exit 7) & first=$!
(exit 8) & second=$!
wait $second
echo "second $?"
wait $first
echo "first $?"
trap 'echo told' USR1
parent=$$
{ kill -USR1 $parent; sleep 1; } &
wait
echo "after the signal"
sleep 1000 & kill $!
wait $!
echo "killed $?"
wait 9999
echo "no child $?"
