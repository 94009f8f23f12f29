; A function that calls itself, which the assembler fills in without the linker.
define noundef i32 @hutplan_read(i32 %a) {
  %b = call i32 @again(i32 %a)
  %c = add i32 %b, 1
  ret i32 %c
}

define internal i32 @again(i32 %a) noinline {
  %list = alloca [100 x i8]
  store volatile i8 1, ptr %list
  %last = icmp eq i32 %a, 0
  br i1 %last, label %end, label %go_on
go_on:
  %b = sub i32 %a, 1
  %c = call i32 @again(i32 %b)
  store volatile i8 2, ptr %list
  %d = mul i32 %c, 3
  ret i32 %d
end:
  ret i32 7
}
