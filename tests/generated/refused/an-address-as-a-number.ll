define i64 @f(i64 %a, ptr %p) {
  %r = ptrtoaddr ptr %p to i64 ; refused
  ret i64 0
}
