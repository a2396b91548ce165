s: semaphore := 1;
process p begin print 1 end
