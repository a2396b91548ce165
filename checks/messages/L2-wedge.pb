process p
begin
  integer x;
  if x ∧ 1 then skip fi
end
