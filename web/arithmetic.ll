; Numbers of 128 bits, which LLVM asks for by name on wasm64. A number is two halves, the lower first; a result is
; written where the first argument points.

target datalayout = "e-m:e-p:64:64-p10:8:8-p20:8:8-i64:64-i128:128-n32:64-S128-ni:1:10:20"
target triple = "wasm64-unknown-unknown"

; The product, modulo 2^128: (a + 2^32 b) (c + 2^32 d) of the lower halves, and the crossed products of the upper ones.
define void @__multi3(ptr %to, i64 %x, i64 %xh, i64 %y, i64 %yh) nounwind {
  %a = and i64 %x, 4294967295
  %b = lshr i64 %x, 32
  %c = and i64 %y, 4294967295
  %d = lshr i64 %y, 32
  %ac = mul i64 %a, %c
  %bc = mul i64 %b, %c
  %ad = mul i64 %a, %d
  %bd = mul i64 %b, %d
  %ac.high = lshr i64 %ac, 32
  %ac.low = and i64 %ac, 4294967295
  %middle = add i64 %bc, %ac.high
  %middle.high = lshr i64 %middle, 32
  %middle.low = and i64 %middle, 4294967295
  %cross = add i64 %ad, %middle.low
  %cross.high = lshr i64 %cross, 32
  %cross.up = shl i64 %cross, 32
  %low = or i64 %cross.up, %ac.low
  %up.1 = mul i64 %xh, %y
  %up.2 = mul i64 %x, %yh
  %h.1 = add i64 %bd, %middle.high
  %h.2 = add i64 %h.1, %cross.high
  %h.3 = add i64 %h.2, %up.1
  %high = add i64 %h.3, %up.2
  store i64 %low, ptr %to
  %to.high = getelementptr i8, ptr %to, i64 8
  store i64 %high, ptr %to.high
  ret void
}

; x shifted left by n, 0 to 127.
define void @__ashlti3(ptr %to, i64 %x, i64 %xh, i32 %n) nounwind {
  %by = zext i32 %n to i64
  %high = call i64 @llvm.fshl.i64(i64 %xh, i64 %x, i64 %by)
  %low = call i64 @llvm.fshl.i64(i64 %x, i64 0, i64 %by)
  %far = icmp uge i32 %n, 64
  %low.is = select i1 %far, i64 0, i64 %low
  %high.is = select i1 %far, i64 %low, i64 %high
  store i64 %low.is, ptr %to
  %to.high = getelementptr i8, ptr %to, i64 8
  store i64 %high.is, ptr %to.high
  ret void
}

; x shifted right by n, 0 to 127, filled with zeros.
define void @__lshrti3(ptr %to, i64 %x, i64 %xh, i32 %n) nounwind {
  call void @shifted(ptr %to, i64 %x, i64 %xh, i64 0, i32 %n)
  ret void
}

; and with copies of the sign.
define void @__ashrti3(ptr %to, i64 %x, i64 %xh, i32 %n) nounwind {
  %sign = ashr i64 %xh, 63
  call void @shifted(ptr %to, i64 %x, i64 %xh, i64 %sign, i32 %n)
  ret void
}

define internal void @shifted(ptr %to, i64 %x, i64 %xh, i64 %fill, i32 %n) nounwind {
  %by = zext i32 %n to i64
  %low = call i64 @llvm.fshr.i64(i64 %xh, i64 %x, i64 %by)
  %high = call i64 @llvm.fshr.i64(i64 %fill, i64 %xh, i64 %by)
  %far = icmp uge i32 %n, 64
  %low.is = select i1 %far, i64 %high, i64 %low
  %high.is = select i1 %far, i64 %fill, i64 %high
  store i64 %low.is, ptr %to
  %to.high = getelementptr i8, ptr %to, i64 8
  store i64 %high.is, ptr %to.high
  ret void
}

declare i64 @llvm.fshl.i64(i64, i64, i64)
declare i64 @llvm.fshr.i64(i64, i64, i64)
