#!/bin/sh
# A task of the array that with-slurm hands in. Where its node dies Slurm begins it again on
# another.
#SBATCH --job-name=segrx
#SBATCH --ntasks=1
#SBATCH --requeue
#SBATCH --open-mode=append
set -eu
one_shard=$1 command=$2 shards=$3 to=$4
shift 4
shard=$((SLURM_ARRAY_TASK_ID % shards))/$shards
shift $((SLURM_ARRAY_TASK_ID / shards))
exec "$one_shard" "$command" "$1" "$shard" "$to"
