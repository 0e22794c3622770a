define i64 @f(i64 %a, ptr %p) {
  %z = zext i64 %a to i256
  %y = add i256 %z, 1
  %r = trunc i256 %y to i64
  ret i64 %r ; refused at %z
}
