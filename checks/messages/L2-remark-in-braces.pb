process p begin print 1; { a remark here } print 2 end
