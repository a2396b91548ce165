process p
begin
end
