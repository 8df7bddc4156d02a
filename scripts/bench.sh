#!/bin/bash
# Measures `loom plan` on documents near its limits: for each the least processor time and the
# greatest memory of five runs. It isn't part of the gate.
set -eu
top=$(cd "$(dirname "$0")/.." && pwd)
folder=$(mktemp -d)
trap 'rm -rf "$folder"' EXIT
python3 "$top/scripts/documents.py" "$folder"
printf '%-36s %10s %10s %8s\n' document seconds MB status
for document in "$folder"/*.json; do
    name=$(basename "$document" .json)
    status=0
    for _ in 1 2 3 4 5; do
        status=0
        /usr/bin/time -a -o "$folder/$name.times" -f '%U %S %M' "$top/bin/loom" plan <"$document" >"$folder/line" 2>/dev/null || status=$?
    done
    grep -E '^[0-9.]+ [0-9.]+ [0-9]+$' "$folder/$name.times" |
        awk -v name="$name" -v status="$status" '{ t = $1 + $2; if (!n++ || t < best) best = t; if ($3 > most) most = $3 }
            END { printf "%-36s %10.2f %10.0f %8d\n", name, best, most / 1024, status }'
done
