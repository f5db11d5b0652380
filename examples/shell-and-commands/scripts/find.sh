# find with its tests, and -exec for each file and for all at once.
mkdir -p /tmp/t/a /tmp/t/b
cd /tmp/t
echo 1 >a/one.c
echo 22 >a/two.h
echo 333 >b/three.c
: >b/empty
find . -type f -name '*.c' | sort
find . -name '*.c' -exec wc -c {} \; | sort
find . -type f -exec sh -c 'echo "$# files"' sh {} +
find . -type f -size -2c | sort
find . -empty
find . -newer a/two.h -type f | sort
find . -type d -name a -prune -o -type f -print | sort
find . -name '*.h' -delete && find . -name '*.h'
find . -type f -print0 | xargs -0 -n 1 basename | sort
