#!/bin/sh
# Epilog of slurmd: gives back what the prolog holds for the job.
held=/run/parbegin/slurm.$SLURM_JOB_ID
[ ! -e "$held" ] || { kill "$(cat "$held")"; rm "$held"; }
