define i64 @f(i64 %a, ptr %p) {
  call void @llvm.memset.p0.i64(ptr %p, i8 0, i64 %a, i1 true) ; refused
  ret i64 0
}
