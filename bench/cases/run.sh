#!/usr/bin/env bash
# Plays each script of a folder, and compares report and status with those that stand beside it: NAME.script,
# NAME.report, and NAME.status where the status isn't 0. Where the folder has a file storms.txt, the summaries of storms,
# each of these storms is played and compared with its own.
# Usage: bench/cases/run.sh FOLDER
set -u
top=$(cd "$(dirname "$0")/../.." && pwd)
folder=${1:?a folder of cases}
agree=0 differ=0
report=$(mktemp)
trap 'rm -f "$report"' EXIT

# The status that a case has: its file's, or 6 of the case `differs`, or 0.
wanted_status() {
    if [ -f "${1%.script}.status" ]; then
        cat "${1%.script}.status"
    elif [ "$(basename "$1")" = differs.script ]; then
        echo 6
    else
        echo 0
    fi
}

for script in "$folder"/*.script; do
    "$top/dn" play < "$script" > "$report" 2> /dev/null
    status=$?
    if [ "$status" = "$(wanted_status "$script")" ] && cmp -s "$report" "${script%.script}.report"; then
        agree=$((agree + 1))
    else
        differ=$((differ + 1))
        echo "differs: $script (status $status)"
    fi
done
if [ -f "$folder/storms.txt" ]; then
    for number in $(sed -n 's/^storm //p' "$folder/storms.txt"); do
        if "$top/dn" storm "$number" | cmp -s - <(sed -n "/^storm $number\$/,/^end\$/p" "$folder/storms.txt"); then
            agree=$((agree + 1))
        else
            differ=$((differ + 1))
            echo "differs: storm $number"
        fi
    done
fi
echo "$agree agree, $differ differ"
[ "$differ" -eq 0 ]
