#!/bin/sh
# Takes the disk, and within that the tape. Its claim says so before.
parbegin hold --claim "1 tape, 1 disk" "1 disk" -- sh -c '
    sleep 1
    parbegin hold "1 tape" -- echo second has both'
