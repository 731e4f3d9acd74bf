#!/usr/bin/env bash
# Judges the controller of a project, as a step of its continuous integration. It ends with the status of `audit`, which is 0
# only where the controller is right, and keeps the verdict for people and for scripts.
#
# usage: judge.sh CONTROLLER MARCH MEMORY [FOLDER]    FOLDER, `verdict` unless it is named, gets verdict.txt and verdict.json
set -u -o pipefail
if [ $# -lt 3 ] || [ $# -gt 4 ]; then
  sed -n '2,5s/^# \{0,1\}//p' "$0" >&2
  exit 2
fi
folder=${4:-verdict}
mkdir -p -- "$folder" || exit 2
vidlakost audit "$1" "$2" "$3" --json "$folder/verdict.json" | tee -- "$folder/verdict.txt"
