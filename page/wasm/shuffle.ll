
; What the one instruction of x86-64 does that the libraries ask for by name (pshufb): byte i of the result is the byte of
; `bytes` that the low four bits of byte i of `places` name, or 0 where its highest bit is set.
define internal <16 x i8> @shuffled_bytes(<16 x i8> %bytes, <16 x i8> %places) noinline {
begin:
  %from = alloca <16 x i8>, align 16
  %by = alloca <16 x i8>, align 16
  %to = alloca <16 x i8>, align 16
  store <16 x i8> %bytes, ptr %from, align 16
  store <16 x i8> %places, ptr %by, align 16
  br label %turn

turn:
  %i = phi i64 [ 0, %begin ], [ %next, %turn ]
  %place_at = getelementptr i8, ptr %by, i64 %i
  %place = load i8, ptr %place_at, align 1
  %low = and i8 %place, 15
  %offset = zext i8 %low to i64
  %byte_at = getelementptr i8, ptr %from, i64 %offset
  %byte = load i8, ptr %byte_at, align 1
  %is_none = icmp slt i8 %place, 0
  %shown = select i1 %is_none, i8 0, i8 %byte
  %to_at = getelementptr i8, ptr %to, i64 %i
  store i8 %shown, ptr %to_at, align 1
  %next = add i64 %i, 1
  %is_over = icmp eq i64 %next, 16
  br i1 %is_over, label %end, label %turn

end:
  %all = load <16 x i8>, ptr %to, align 16
  ret <16 x i8> %all
}
