define i64 @f(i64 %a, ptr %p) {
  %r = musttail call i64 @f(i64 %a, ptr %p) ; refused
  ret i64 0
}
