define i64 @f(i64 %a, ptr %p) {
  %r = call i64 @f(i64 %a, ptr %p) [ "deopt"(i32 1) ] ; refused
  ret i64 0
}
