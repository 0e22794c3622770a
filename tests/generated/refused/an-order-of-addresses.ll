define i64 @f(i64 %a, ptr %p) {
  %c = icmp ult ptr %p, null
  store i8 0, ptr %p
  %r = zext i1 %c to i64
  ret i64 %r ; refused at %c
}
