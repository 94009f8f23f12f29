; A call that reaches itself by way of another function.
define noundef i32 @hutplan_read(i32 %a) noinline {
  %b = call i32 @next(i32 %a)
  %c = add i32 %b, 1
  ret i32 %c
}

define internal i32 @next(i32 %a) noinline {
  %list = alloca [100 x i8]
  store volatile i8 1, ptr %list
  %last = icmp eq i32 %a, 0
  br i1 %last, label %end, label %again
again:
  %b = sub i32 %a, 1
  %c = call i32 @hutplan_read(i32 %b)
  %d = mul i32 %c, 3
  ret i32 %d
end:
  ret i32 7
}
