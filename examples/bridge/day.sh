#!/bin/sh
# A day of a simulated town in a minute: 2,000 frames, with the bridge and the desk killed now and then. It prints a table.
#
#     examples/bridge/day.sh [SEED]
#
# The program is ./desk, or the one that DESK names.
set -eu

root=$(cd "$(dirname "$0")/../.." && pwd)
exec "$root/checks/bridge.py" --program "${DESK:-$root/desk}" --seeds "${1:-1}" --frames 2000 --devices 130 --gateways 10 --kills 8
