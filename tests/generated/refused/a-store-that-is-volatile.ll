define i64 @f(i64 %a, ptr %p) {
  store volatile i64 %a, ptr %p, align 8 ; refused
  ret i64 0
}
