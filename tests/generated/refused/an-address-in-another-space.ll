define i64 @f(i64 %a, ptr %p) {
  %r = load i64, ptr addrspace(1) %p, align 8 ; refused
  ret i64 0
}
