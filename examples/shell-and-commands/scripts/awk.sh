# Fields, arrays, functions, floating point, pipes, and the commands of a shell.
cd /tmp
printf 'ann 3 1.5\nbob 4 2.25\nann 5 0.5\n' >sales
awk '{ total[$1] += $2 * $3 } END { for (name in total) printf "%s %.3f\n", name, total[name] }' sales | sort
awk -F' ' 'NR > 1 { print NR ": " $NF }' sales
awk 'function double(x) { return 2 * x } BEGIN { print double(21), sqrt(2), 1 / 3, int(-3.7), exp(1) }'
awk 'BEGIN { while (("cat sales" | getline line) > 0) n++; print n " lines"; system("echo from a shell") }'
awk 'BEGIN { s = "a-b-c"; n = split(s, part, "-"); print n, part[3]; gsub("-", "+", s); print s, toupper(part[1]) }'
awk -v limit=4 '$2 >= limit { print > "many" } END { close("many"); while (getline l < "many") print "many: " l }' sales
awk 'BEGIN { printf "%5.1f|%-5d|%05x|%c\n", 3.14159, 42, 255, 65 }'
awk 'BEGIN { print strftime("%Y-%m-%d", 86400) }'
