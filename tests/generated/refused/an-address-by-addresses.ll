define i64 @f(i64 %a, ptr %p) {
  %r = getelementptr ptr, ptr %p, i64 %a ; refused
  ret i64 0
}
