define i64 @f(i64 %a, ptr %p) {
  %r = call i64 @llvm.fshl.i64(i64 %a, i64 %a, i64 3)
  store i64 %r, ptr %p
  store i64 %r, ptr %p ; refused at %r
  ret i64 0
}
