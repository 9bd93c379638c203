#!/usr/bin/env bash
# Checks the units and their drop-ins by `systemd-analyze verify`, with /bin/true instead of each program that isn't installed; the rules by `nft --check`, in a network
# namespace of its own; and netns.sh by `sh -n`. It fails if one of them reports anything:
#     examples/systemd/verify.sh
set -eu
cd "$(dirname "$0")"
for command in systemd-analyze nft unshare; do
    command -v "$command" >/dev/null || { echo "verify: not run: the command $command is missing" >&2; exit 2; }
done
room=$(mktemp -d)
trap 'rm -rf "$room"' EXIT
cp -r ./*.service ./*.timer ./*.service.d "$room"
for program in /usr/local/bin/ftnode /usr/local/lib/ftnode/{server_status.py,log_status.py,gateway.py,netns.sh}; do
    [ -x "$program" ] || sed -i "s#$program#/bin/true#" "$room"/*.service
done
clean() { # COMMAND WORD..: fails if it fails or says anything
    local said
    said=$("$@" 2>&1) && [ -z "$said" ] || { echo "$said"; exit 1; }
}
units=("$room"/*.service "$room"/*.timer) drop_ins=("$room"/*.d/*.conf) rules=(*.nft)
clean systemd-analyze verify "${units[@]}"
for file in "${rules[@]}"; do clean unshare --net --map-root-user nft --check --file "$file"; done
clean sh -n netns.sh
echo "verify: ${#units[@]} units, ${#drop_ins[@]} drop-ins and ${#rules[@]} files of rules are clean"
