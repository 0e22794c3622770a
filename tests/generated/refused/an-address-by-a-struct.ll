define i64 @f(i64 %a, ptr %p) {
  %r = getelementptr { i8, i32 }, ptr %p, i64 %a, i32 1 ; refused
  ret i64 0
}
