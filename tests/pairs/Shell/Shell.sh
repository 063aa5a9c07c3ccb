#!/bin/sh
# A script that keeps copies of a folder.
set -e

name=copy
from="$HOME/papers"
to="${1:-$HOME/copies}"
keep=$((7 * 4))
day=$(date +%F)   # as in 2024-12-31

if [ ! -d "$to" ]
then
    mkdir -p "$to" || exit 1
fi

echo 'one '"two"' three'$name four\ five"${six}" seven
echo "a $(echo "b $(echo "c ${d:-"e $f"} g") h" | cat) i" > /dev/null
echo if then else fi while for in do done ! a=b
LANG=C TZ="UTC" sort -k 2 < list > "$to/list.$day" 2> /dev/null

for file in "$from"/*.txt 'odd name' a"b"c
do
    base=${file##*/}
    short=${base%.txt}
    if [ "$short" = "$name" ] && [ -r "$file" ] || [ $# -gt 2 ]
    then
        continue
    else
        cp "$file" "$to/$short-$day.txt" &&
            echo "copied $file" |
            tee -a log
    fi
done

cat <<END
Dear $user,
    "quotes" and 'quotes' and $(nothing) mean nothing here.
END is the end, but not within a line.

END

sort -u <<END
b
a
END

read first rest <<< "$day $name"
tr a-z A-Z <<<$name >> upper
wc -l < "$to"/list

i=0
while [ $i -lt 10 ]; do
    i=$((i + 1))
    square=$((i ** 2)) cube=$(( i**3 - $i * (2 + 1) / !0 ))
    echo "$i: $square, $((square * 2 <= cube == 1))"
done > squares 2>> errors

(cd "$to"; ls -l | grep -v '^d' | while read line; do echo "- $line"; done) &
! grep -q end log && echo none

count=$(ls "$to" | wc -l)
if [ $count -gt $keep ]; then
    ls "$to" | head -n $((count - keep)) | (
        while read old
        do rm "$to/$old"
        done
    )
fi

# Words that are joined over lines.
echo one \
    two \
    three\
four

x=1 y="2" z='3'
empty=
nested=$(echo $(echo $(echo x)))
both="$x$y${z}$((x+y))"
price="5$ and 6$"
brace={ other=}
unset x; unset y; unset z
[ "$nested" = x ] || { echo no; exit 1; }
echo ${path:=${HOME:?"no home"}/bin} ${path+set} ${path#*/}${path%%:*}
echo "naïve café ☕" | sed -e 's/é/e/g' \
    -e "s/$x/\"$y\"/"

for w in in do done; do echo $w; done
if true; then if false; then :; else :; fi; fi
sleep 10 & sleep 20 &
wait
exit 0
