#!/usr/bin/env bash
# What `ftnode logger --journal FILE` does with bad files and bad disks: files that are cut at each byte or have one of their bits changed, or two; blocks that were
# dropped, repeated, exchanged or taken from another journal; other bytes, each prefix of a new file; a file that is missing, or is there and is to be made; a name
# that is taken away or given to another file while the logger runs; a folder, a link, a device, a second name; no permission to read, to write or to make the file (as nobody, by
# setpriv); a second logger; a journal of another profile; a file that is replaced by a new one, and what is at the new one's name; a disk that gets full, and one that is full before the first start (a tmpfs in this script's own mount namespace); wrong words.
# In each case the status and the text are checked, that a damaged file isn't changed, and that after a restart the log has all that was answered. It takes 20
# seconds.
#     sudo bench/journal_faults.sh [PROGRAM]        a built ftnode, by default this checkout's
set -eu
program=${1:+$(realpath "$1")}
. "$(dirname "$0")/common.sh"
[ "$(id -u)" = 0 ] || { echo "journal_faults.sh: not run: it needs root" >&2; exit 2; }
if [ -z "$program" ]; then
    build ftnode logger --local 127.0.0.1:7040 --turns 1
    program=$PWD/crates/ftnode/out/ftnode
fi
# nobody has to come to the program and to the folder
chmod 755 "$work"
cp "$program" "$work/ftnode"
mkdir "$work/room"
unshare --mount bench/journal_faults.py "$work/ftnode" "$work/room"
