process p begin integer x; x := <-ch; print x end
