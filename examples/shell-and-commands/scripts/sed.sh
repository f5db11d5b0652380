# Lines are changed in files, and on their way.
cd /tmp
printf 'red\ngreen\nblue\n' >colours
chmod 604 colours
sed -i 's/green/yellow/' colours
cat colours
stat -c '%a' colours
sed -i.old -e '1d' -e '$a black' colours
cat colours
cat colours.old
sed -n '/yellow/,$p' colours
sed -E 's/(.)(.)/\2\1/g' colours
printf 'a\nb\nc\n' | sed -n -e '2{p;q;}'
printf 'x y\n' | sed 'y/xy/XY/; s/ /\n/'
