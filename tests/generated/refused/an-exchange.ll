define i64 @f(i64 %a, ptr %p) {
  %r = cmpxchg ptr %p, i64 0, i64 %a seq_cst seq_cst ; refused
  ret i64 0
}
