define i64 @f(i64 %a, ptr %p) {
  %r = alloca [2 x i32], align 8 ; refused
  ret i64 0
}
