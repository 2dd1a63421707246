#!/bin/bash
#SBATCH --job-name=cachesim-page
#SBATCH --cpus-per-task=1
#SBATCH --output=page-%a.log
# One task of an array job: it sweeps the page that one line of the file `pages` tells, in the
# folder that `submit` made. Beside its part it leaves the size and the time of the trace, by which
# a trace that is written to between tasks is found.
#
#     sbatch --array=1-N --chdir=FOLDER sweep.sbatch TRACE PROGRAM TOOLS
set -euo pipefail
part=part-$SLURM_ARRAY_TASK_ID state=trace-$SLURM_ARRAY_TASK_ID
read -ra arguments < <(sed -n "${SLURM_ARRAY_TASK_ID}p" pages)
stat -L -c '%s %.9Y' -- "$1" > "$state"
CACHESIM=$2 "$3/sweep-parallel" 1 "$1" "${arguments[@]}" > "$part.tmp"
stat -L -c '%s %.9Y' -- "$1" | cmp -s -- "$state" || {
    echo "$1 has changed while it was read" >&2
    exit 1
}
mv -- "$part.tmp" "$part"           # a part that is there is whole
