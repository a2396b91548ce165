process p begin integer a, b; parbegin a := 1 || b := 2 parend end
