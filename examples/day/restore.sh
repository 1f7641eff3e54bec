#!/bin/sh
# Puts a copy of a server's files in the place of those that it has, which are kept beside. The server is to be stopped.
#
# A copy is a folder with the files of one server that was stopped, or of a snapshot. Where the lines that `rdfdelta
# check` printed of it were kept in its file `check`, they are compared. Nothing is moved before the copy was opened.
#
# usage: examples/day/restore.sh COPY FOLDER
set -eu
copy=$1
folder=$2

fail() {
    echo "restore.sh: $1" >&2
    rm -rf "$folder.new"
    exit 1
}

rm -rf "$folder.new"
mkdir "$folder.new"
cp "$copy"/rdj-* "$folder.new/"
# An opening may make a file that is missing.
lines=$(rdfdelta check "$folder.new") || fail "the copy doesn't open: $copy"
if [ -e "$copy/check" ] && [ "$lines" != "$(cat "$copy/check")" ]; then
    fail "the copy holds something else than was noted: $copy"
fi
sync "$folder.new"/* "$folder.new"

if [ -e "$folder" ]; then
    status=0
    rdfdelta check "$folder" >/dev/null 2>&1 || status=$?
    [ "$status" != 5 ] || fail "a server has the files, or they can't be read: $folder"
    mv "$folder" "$folder.$(date +%Y-%m-%d-%H%M%S)"
fi
mv "$folder.new" "$folder"
echo "$lines"
