PBO 2
processes 1
