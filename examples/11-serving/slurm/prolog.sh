#!/bin/sh
# Prolog of slurmd: holds what the comment of the job says, as `sbatch --comment="1 tape" ..`, until the epilog.
[ -n "$SLURM_JOB_COMMENT" ] || exit 0
held=/run/parbegin/slurm.$SLURM_JOB_ID
mkfifo "$held"
# (the hold lives on after this script)
setsid sh -c '
    parbegin hold --name "slurm.$SLURM_JOB_ID" --timeout 3600 "$SLURM_JOB_COMMENT" -- \
        sh -c "echo \$PPID >\"\$1\"; exec sleep infinity" sh "$1"
    [ ! -p "$1" ] || echo refused >"$1"' sh "$held" </dev/null >/dev/null 2>&1 &
read -r pid <"$held"
rm "$held"
[ "$pid" = refused ] || echo "$pid" >"$held"
# (without it the job goes back into the queue)
[ -e "$held" ]
