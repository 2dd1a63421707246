#!/bin/bash
#SBATCH --job-name=cachesim-join
#SBATCH --cpus-per-task=1
#SBATCH --output=join.log
# Joins the parts of a table, when all tasks that write them have ended well. Where the trace was
# written to between tasks, as its size and time tell or the numbers of references, they are not
# joined.
#
#     sbatch --dependency=afterok:ARRAY-JOB --kill-on-invalid-dep=yes --chdir=FOLDER join.sbatch
set -euo pipefail
refuse() {
    echo "the pages are of different traces: remove $PWD, and submit it anew" >&2
    exit 1
}
mapfile -t parts < <(seq -f 'part-%.0f' "$(wc -l < pages)")
cat -- "${parts[@]}" > table.tmp
states=$(cat -- "${parts[@]/#part/trace}")
(($(sort -u <<< "$states" | wc -l) == 1)) || refuse
awk -F, 'NR == 1 { for (at = 1; at <= NF; at++) column[$at] = at; next }
    { count = $column["hits"] + $column["misses"] }
    NR > 2 && count != last { print last " and " count " references"; exit 1 }
    { last = count }' table.tmp >&2 || refuse
mv -- table.tmp table.csv
rm -- "${parts[@]}" "${parts[@]/#part/trace}"
