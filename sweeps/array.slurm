#!/bin/sh
#SBATCH --job-name=sweep
#SBATCH --cpus-per-task=1
#SBATCH --time=01:00:00
#SBATCH --output=sweep-%A-%a.log
# A task a part: sbatch --array=1-64 sweeps/array.slurm 64 IMAGE [OPTIONS of sweep run], from the top of a checkout. The parts are
# part-1.csv to part-64.csv. Those of lost tasks come by the same words with their numbers: --array=3,17.
[ $# -ge 2 ] || { echo "sbatch --array=1-PARTS sweeps/array.slurm PARTS IMAGE [OPTIONS of sweep run]" >&2; exit 2; }
parts=$1 image=$2
shift 2
exec sweeps/sweep run "part-${SLURM_ARRAY_TASK_ID:?no array job}.csv" "$image" "$@" --part "$SLURM_ARRAY_TASK_ID/$parts"
