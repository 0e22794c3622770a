define i64 @f(i64 %a, ptr %p) {
  %r = extractvalue { i64, { i64, i64 } } poison, 1, 0 ; refused
  ret i64 0
}
