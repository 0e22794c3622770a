define i64 @f(i64 %a, ptr %p) {
  %r = ptrtoint ptr %p to i64 ; refused
  ret i64 0
}
