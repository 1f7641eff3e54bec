#!/bin/sh
# Appends rows to a log as one patch, behind the newest one. Each is a row of A, D, PA or PD, as in
#   A <http://e/s> <http://e/p> "text"@en .
#
# Where no answer comes, the same patch is sent again: a log takes an id once, and tells that it has it. Where another
# writer came first, it ends with status 1, since the rows may not be right any more behind what the other one wrote.
#
# usage: examples/day/append.sh ADDRESS NAME < ROWS
set -eu
address=$1
name=$2
patch=$(mktemp)
trap 'rm -f "$patch"' EXIT

log=$(rdfdelta describe "$address" "$name")
head=$(echo "$log" | sed -n 's/^{"head":"\([^"]*\)".*/\1/p')
{
    echo "H id <uuid:$(cat /proc/sys/kernel/random/uuid)> ."
    [ -z "$head" ] || echo "H prev <uuid:$head> ."
    echo 'TX .'
    cat
    echo 'TC .'
} >"$patch"

for wait in 0.2 1 5 0; do
    status=0
    said=$(rdfdelta append "$address" "$name" <"$patch" 2>&1) || status=$?
    case $status:$said in
        1:*'"known","same":true'*)
            status=0
            said=$(echo "$said" | sed 's/.*\("version":[0-9]*\).*/{\1}/')
            ;;
        1:*' 503 '* | 6:* | 7:*)
            sleep "$wait"
            continue
            ;;
    esac
    break
done
[ "$status" = 0 ] || exec >&2
echo "$said"
exit "$status"
