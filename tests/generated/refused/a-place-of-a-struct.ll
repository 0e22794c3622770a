define i64 @f(i64 %a, ptr %p) {
  %r = alloca { i8, i32 }, align 4 ; refused
  ret i64 0
}
