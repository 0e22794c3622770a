define i64 @f(i64 %a, ptr %p) {
  %r = inttoptr i64 %a to ptr ; refused
  ret i64 0
}
