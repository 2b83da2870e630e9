#!/usr/bin/env bash
# Removes what scripts/install.sh has put under a prefix, by the record that it left there: the files, and of the folders
# those that it made, where nothing else is in them now. Folders above the prefix stay. DESTDIR is as for the install.
set -eu
root=$(cd "$(dirname "$0")/.." && pwd)
. "$root/scripts/prefix.sh"
read_prefix "$@"

if [ ! -e "$top/$record" ]; then
    echo "nothing is installed under $top: there is no $record"
    exit 0
fi
lines=$(cat "$top/$record") || fault "cannot read $top/$record"

# The record is a file that others may have changed: a path of it may not lead out of the prefix.
while read -r kind path; do
    case $kind:/$path/ in
    *:*/../* | *://*) fault "$top/$record names $path, which is not under the prefix" ;;
    file:* | folder:*) ;;
    *) fault "$top/$record has a line that begins with $kind" ;;
    esac
done <<<"$lines"

remove() { # PATH
    local reason
    [ -e "$top/$1" ] || [ -L "$top/$1" ] || return 0
    reason=$(rm -f "$top/$1" 2>&1) || fault "cannot remove $top/$1: $reason"
    echo "removed $top/$1"
}
while read -r kind path; do
    [ "$kind" != file ] || [ "$path" = "$record" ] || remove "$path"
done <<<"$lines"
# Last, so that an uninstall that failed can be made again.
remove "$record"

# In the record a folder comes before those in it, and `.`, the prefix itself, before all; so from the last to the first.
while read -r kind path; do
    [ "$kind" = folder ] || continue
    folder=$top/$path
    [ "$path" != . ] || folder=$top
    ! rmdir "$folder" 2>/dev/null || echo "removed $folder"
done < <(LC_ALL=C sort -r <<<"$lines")
