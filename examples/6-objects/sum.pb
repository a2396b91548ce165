// A short program for a first look at its object: `emit` shows the instructions that a machine executes.
process p begin integer x; x := 2 + 3; print x end
