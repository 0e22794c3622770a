@t = private constant [2 x ptr] [ptr null, ptr null] ; refused
