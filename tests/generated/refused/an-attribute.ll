define i64 @f(i64 %a, ptr %p) {
  %r = call i64 @f(i64 %a, ptr byval([4 x i8]) %p) ; refused
  ret i64 0
}
