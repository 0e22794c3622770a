define i64 @f(i64 %a, ptr %p) {
  %r = alloca [4 x i8], i64 %a, align 4 ; refused
  ret i64 0
}
