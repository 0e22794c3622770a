define i64 @f(i64 %a, ptr %p) {
  %t = trunc i64 %a to i32
  %r = getelementptr i8, ptr %p, i32 %t ; refused
  ret i64 0
}
