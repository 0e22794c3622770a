define i64 @f(i64 %a, ptr %p) {
  %r = shl i64 %a, 64
  store i64 %r, ptr %p
  store i64 %r, ptr %p ; refused at %r
  ret i64 0
}
