@t = alias i64, ptr @u ; refused
