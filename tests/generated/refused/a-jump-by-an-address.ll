define i64 @f(i64 %a, ptr %p) {
  indirectbr ptr %p, [ label %e ] ; refused
e:
  ret i64 0
}
