define i64 @f(i64 %a, ptr %p) {
  %r = alloca ptr, align 8 ; refused
  ret i64 0
}
