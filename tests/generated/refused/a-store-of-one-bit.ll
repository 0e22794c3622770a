define i64 @f(i64 %a, ptr %p) {
  store i1 true, ptr %p, align 1 ; refused
  ret i64 0
}
