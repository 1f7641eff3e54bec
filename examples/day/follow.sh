#!/bin/sh
# Keeps a copy of a log with its dataset in a folder, and the dataset's quads as N-Quads in the file quads.nq there.
#
# It asks each so many seconds, or once. It may be killed at any moment, and goes on where it was. While the server is
# away it waits; any other fault ends it with the program's line and status, as 10 where the log is another one.
#
# usage: examples/day/follow.sh FOLDER ADDRESS NAME [SECONDS]
set -eu
folder=$1
address=$2
name=$3
seconds=${4:-}

# One process at a time has a copy: others that read it wait by the same lock.
alone() {
    flock "$folder" rdfdelta "$@"
}

mkdir -p "$folder"
[ -s "$folder/rdj-1000" ] || alone zone "$folder"
last=
while :; do
    status=0
    now=$(alone sync "$folder" "$address" "$name") || status=$?
    if [ "$status" = 0 ] && [ "$now" != "$last" ]; then
        alone dump "$folder" >"$folder/quads.new"
        mv "$folder/quads.new" "$folder/quads.nq"
        echo "$name: $now"
        last=$now
    fi
    case $seconds:$status in
        :*) exit "$status" ;;
        *:0 | *:6 | *:7) sleep "$seconds" ;;
        *) exit "$status" ;;
    esac
done
