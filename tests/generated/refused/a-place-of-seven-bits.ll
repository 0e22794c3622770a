define i64 @f(i64 %a, ptr %p) {
  %r = alloca i7, align 1 ; refused
  ret i64 0
}
