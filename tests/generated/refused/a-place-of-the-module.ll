@t = internal global [4 x i8] zeroinitializer ; refused
