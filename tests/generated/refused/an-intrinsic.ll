define i64 @f(i64 %a, ptr %p) {
  %r = call i64 @llvm.frobnicate.i64(i64 %a) ; refused
  ret i64 0
}
