define i64 @f(i64 %a, ptr %p) {
  %r = load i9, ptr %p, align 2 ; refused
  ret i64 0
}
