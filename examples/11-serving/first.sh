#!/bin/sh
# Takes the tape, and within that the disk. Its claim says so before.
parbegin hold --claim "1 tape, 1 disk" "1 tape" -- sh -c '
    sleep 1
    parbegin hold "1 disk" -- echo first has both'
