define i64 @f(i64 %a, ptr %p) {
  %r = load { i64, i64 }, ptr %p, align 8 ; refused
  ret i64 0
}
