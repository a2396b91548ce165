process p begin System.out.println(1) end
