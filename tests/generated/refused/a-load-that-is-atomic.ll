define i64 @f(i64 %a, ptr %p) {
  %r = load atomic i64, ptr %p seq_cst, align 8 ; refused
  ret i64 0
}
