#!/usr/bin/env bash
# Runs the commands of docs/GUIDE.md in one folder and compares what they write with the guide: examples/guide.sh [PROGRAM [LOAD]]
# PROGRAM stands in for ./bureau, LOAD for ./bureau load. Status 1: some output is another one.
set -eu
home=$(cd "$(dirname "$0")/.." && pwd)
exec python3 "$home/tools/tour.py" --on "$home/docs/GUIDE.md" "$@"
