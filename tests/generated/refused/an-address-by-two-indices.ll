define i64 @f(i64 %a, ptr %p) {
  %r = getelementptr i8, ptr %p, i64 %a, i64 1 ; refused
  ret i64 0
}
