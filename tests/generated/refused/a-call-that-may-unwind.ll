define i64 @f(i64 %a, ptr %p) {
  %r = invoke i64 @f(i64 %a, ptr %p) to label %e unwind label %e ; refused
e:
  ret i64 0
}
