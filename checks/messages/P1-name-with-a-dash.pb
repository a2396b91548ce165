process my-process begin print 1 end
