define i64 @another(i64 %a) { ; refused
  ret i64 %a
}
