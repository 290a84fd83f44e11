#!/usr/bin/env bash
# Prints what follows from an archive, by name and sorted, so that two versions of it can be compared.
#
# usage: what_follows.sh FILE
#
# Wants crm_cli (or the variable CRM_CLI) and awk. Where the file is refused or contradicts itself, that is said on the
# error output, nothing is printed, and the status is that of the program.
set -euo pipefail
if [ $# -ne 1 ]; then
    sed -n '2,7s/^# \?//p' "$0" >&2
    exit 3
fi
program=${CRM_CLI:-crm_cli}
room=$(mktemp -d)
trap 'rm -rf "$room"' EXIT

status=0
"$program" reason "$1" > "$room/reason" || status=$?
if ! grep -qx consistent "$room/reason"; then
    echo "$1: $(tail -n 2 "$room/reason" | paste -sd ' ')" >&2
    exit "$status"
fi
awk '
    /^x[0-9]+ (period|span) / { name[$1] = $3 }
    /^P1[78][0-9] / { codes = $1; i = 2; if ($i ~ /^P/) codes = codes " " $(i++); print name[$i], codes, name[$(i + 1)] }
' "$room/reason" | LC_ALL=C sort
