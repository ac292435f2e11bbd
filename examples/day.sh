#!/bin/sh
# One day of a town's desk, in a folder that is removed at the end. It prints what the desk answers: examples/day.txt.
#
#     examples/day.sh
#
# The program is ./desk, or the one that DESK names. It listens on port 8080, or on the one that PORT names.
set -eu

examples=$(cd "$(dirname "$0")" && pwd)
desk=${DESK:-./desk}
case $desk in /*) ;; *) desk=$PWD/$desk ;; esac
at=127.0.0.1:${PORT:-8080}
server=
folder=$(mktemp -d)
trap 'rm -rf "$folder"; [ -z "$server" ] || kill "$server" 2>/dev/null' EXIT
cd "$folder"

# In the morning the desk is made. It serves 18 connections, and then it ends.
"$desk" init town.db
mkfifo told
"$desk" serve town.db --port "${at#*:}" --count 18 >told &
server=$!
# its first line reports that it listens
if ! read -r line <told || [ "$line" != "listening $at" ]; then
    echo "day.sh: the desk doesn't listen on $at" >&2
    exit 1
fi

# The messages of the day: an owner, gateways and a device; joins; data frames; downlinks.
cat "$examples"/[1-4]-*.jsonl | while read -r message; do
    curl -sS -w '\n' --data-binary "$message" "http://$at/v1/messages"
done

# Reports are asked of the desk that serves, as long as it does: the downlinks of a gateway, and the owner's month.
curl -sS "http://$at/v1/bands/gw-a"
curl -sS "http://$at/v1/reports/town/2024-02"
wait "$server"
server=

# In the evening a gateway brings what it heard: a frame that it had reported already, and two that are new.
"$desk" import town.db --sender bridge <"$examples/evening-report.csv"

# Another gateway brings a frame that is older than the device's last one. It is refused as late, and the status is 0.
"$desk" import town.db --sender bridge <"$examples/late-report.csv"

# The device gets another owner. The same lines once more get the same answers, and change nothing.
"$desk" hear town.db <"$examples/5-move.jsonl"
"$desk" hear town.db <"$examples/5-move.jsonl"

# The books of the day.
"$desk" report town.db town 2024-02
"$desk" report town.db harbour 2024-02
"$desk" bands town.db gw-b
"$desk" check town.db
