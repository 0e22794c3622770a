define i64 @f(i64 %a, ptr %p) {
  %r = fadd double 1.0, 2.0 ; refused
  ret i64 0
}
