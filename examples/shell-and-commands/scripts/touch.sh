# A file is made; one that is there gets the time of now, a time that is named has no effect, and -c makes nothing.
cd /tmp
touch new old
stat -c '%n %s' new old
test new -nt old || touch new
test new -nt old && echo new is newer
touch old
test old -nt new && echo old is newer now
touch -d '2001-02-03 04:05:06' old
date -r old '+%Y-%m-%d'
touch -r new old && touch -m old && touch -a old && echo done
touch -c nothing
test -e nothing || echo nothing was made
