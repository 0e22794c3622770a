define i64 @f(i64 %a, ptr %p) {
  %z = zext i64 %a to i128
  %y = mul i128 %z, %z
  %r = trunc i128 %y to i64
  ret i64 %r ; refused at %y
}
