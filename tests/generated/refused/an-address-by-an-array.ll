define i64 @f(i64 %a, ptr %p) {
  %r = getelementptr [4 x i8], ptr %p, i64 %a ; refused
  ret i64 0
}
