@t = private constant <{ [2 x i8], i32 }> <{ [2 x i8] c"ab", i32 1 }> ; refused
