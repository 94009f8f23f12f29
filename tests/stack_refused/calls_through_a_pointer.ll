; A call of whatever stands at an address.
define noundef i32 @hutplan_read(ptr %callee) {
  %a = call i32 %callee(i32 3)
  %b = add i32 %a, 1
  ret i32 %b
}
