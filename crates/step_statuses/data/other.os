Set a=1
