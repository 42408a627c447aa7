#!/usr/bin/env bash
#SBATCH --job-name=census
#SBATCH --ntasks=1
#SBATCH --cpus-per-task=1
#SBATCH --requeue
#SBATCH --open-mode=append
# Runs one task of an array job of Slurm: the part with the task's number. cluster/with-slurm and
# cluster/take-with-slurm submit this file.
#
# usage: cluster/census.sbatch PART FOLDER TOTAL SIZE [further words, such as --seed x]
#
# PART is the path of cluster/part or cluster/take-part. It is an argument because Slurm runs a copy
# of this file, and the copy can't find the other files of this folder.
set -euo pipefail
exec "$1" "$2" "$3" "$4" "$SLURM_ARRAY_TASK_ID" "${@:5}"
