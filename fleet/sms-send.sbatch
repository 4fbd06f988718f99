#!/bin/bash
# Sends a job that fleet/split split, each part by a task of a Slurm array: as many tasks as it has parts.
#   JOB=/shared/job sbatch --array=1-4 fleet/sms-send.sbatch
# The folder JOB is one that all machines have; FLEET and PROGRAM, where they are set, say where fleet/ and the program are, and WITH has
# words for each sending. A task that was cut is submitted again by hand (--array=3 for the third alone), and goes on where it stopped.
# Slurm doesn't do it by itself: a machine that it calls down may be sending still.
#SBATCH --job-name=sms-send
#SBATCH --ntasks=1
#SBATCH --cpus-per-task=4
#SBATCH --mem=1G
#SBATCH --no-requeue
#SBATCH --open-mode=append
#SBATCH --output=%x-%A-%a.log
set -u
part=$JOB/parts/$(printf %02d "$SLURM_ARRAY_TASK_ID")
exec "${FLEET:-/usr/share/sms-send/fleet}/run" --program "${PROGRAM:-sms-send}" --with="${WITH:-}" --part "$part"
