// A deadlock is not the only way to have no end: this program never waits and never ends. A run stops after the steps
// that `--steps` allows.
process p
begin
  integer x;
  while 1 do x := x + 1; print x od
end
