define i64 @f(i64 %a, ptr %p) {
  %v = load <2 x i64>, ptr %p, align 16 ; refused
  ret i64 0
}
