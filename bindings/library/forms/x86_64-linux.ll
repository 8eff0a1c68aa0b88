; What the kit's compiler makes of such functions for x86-64: an answer of up to 16 bytes is in one or two registers, a longer one in memory.
source_filename = "rattle"
target datalayout = "e-m:e-p270:32:32-p271:32:32-p272:64:64-i64:64-i128:128-f80:128-n8:16:32:64-S128"
target triple = "x86_64-unknown-linux-gnu"

define internal i32 @"forms::next"(i32 noundef %a0) #0 {
  %r0 = add i32 %a0, 1
  ret i32 %r0
}

define i32 @give_one(i32 noundef %a0) #0 {
start:
  ret i32 %a0
}

define i64 @give_two(i32 noundef %a0) #0 {
start:
  %r0 = alloca [8 x i8], align 4
  store i32 %a0, ptr %r0, align 4
  %r1 = getelementptr i8, ptr %r0, i64 4
  %r2 = call i32 @"forms::next"(i32 %a0)
  store i32 %r2, ptr %r1, align 4
  %r3 = load i64, ptr %r0, align 4
  ret i64 %r3
}

define { i64, i32 } @give_three(i32 noundef %a0) #0 {
start:
  %r0 = alloca [16 x i8], align 4
  store i32 %a0, ptr %r0, align 4
  %r1 = getelementptr i8, ptr %r0, i64 4
  %r2 = call i32 @"forms::next"(i32 %a0)
  store i32 %r2, ptr %r1, align 4
  %r3 = getelementptr i8, ptr %r0, i64 8
  %r4 = call i32 @"forms::next"(i32 %r2)
  store i32 %r4, ptr %r3, align 4
  %r5 = load { i64, i32 }, ptr %r0, align 4
  ret { i64, i32 } %r5
}

define { i64, i64 } @give_four(i64 noundef %a0) #0 {
start:
  %r0 = alloca [16 x i8], align 8
  store i64 %a0, ptr %r0, align 8
  %r1 = getelementptr i8, ptr %r0, i64 8
  %r2 = add i64 %a0, 1
  store i64 %r2, ptr %r1, align 8
  %r3 = load { i64, i64 }, ptr %r0, align 8
  ret { i64, i64 } %r3
}

define noundef ptr @give_five(ptr noundef %a0, i64 noundef %a1) #0 {
start:
  store i64 %a1, ptr %a0, align 8
  %r0 = getelementptr i8, ptr %a0, i64 8
  %r1 = add i64 %a1, 1
  store i64 %r1, ptr %r0, align 8
  %r2 = getelementptr i8, ptr %a0, i64 16
  %r3 = add i64 %a1, 2
  %r4 = trunc i64 %r3 to i32
  store i32 %r4, ptr %r2, align 8
  ret ptr %a0
}

define noundef ptr @give_six(ptr noundef %a0, ptr noundef %a1, i64 noundef %a2, i64 noundef %a3, i32 noundef %a4, ptr noundef %a5, i64 noundef %a6) #0 {
start:
  store i32 %a4, ptr %a0, align 8
  %r0 = getelementptr i8, ptr %a0, i64 8
  store i64 %a3, ptr %r0, align 8
  %r1 = getelementptr i8, ptr %a0, i64 16
  %r2 = trunc i64 %a6 to i32
  store i32 %r2, ptr %r1, align 8
  ret ptr %a0
}

define i24 @give_bytes(i8 noundef %a0) #0 {
start:
  %r0 = alloca [3 x i8], align 1
  store i8 %a0, ptr %r0, align 1
  %r1 = getelementptr i8, ptr %r0, i64 1
  %r2 = add i8 %a0, 1
  store i8 %r2, ptr %r1, align 1
  %r3 = getelementptr i8, ptr %r0, i64 2
  %r4 = add i8 %a0, 2
  store i8 %r4, ptr %r3, align 1
  %r5 = load i24, ptr %r0, align 1
  ret i24 %r5
}

define void @give_nothing(ptr noundef %a0, i8 noundef %a1) #0 {
start:
  store i8 %a1, ptr %a0, align 1
  ret void
}

define noundef i64 @give_wide(i8 noundef %a0) #0 {
start:
  %r0 = zext i8 %a0 to i64
  ret i64 %r0
}

define noundef i64 @give_length(ptr noundef %a0, i64 noundef %a1) #0 {
start:
  ret i64 %a1
}

define noundef i64 @give_size(i64 noundef %a0) #0 {
start:
  ret i64 %a0
}

attributes #0 = { nounwind "probe-stack"="inline-asm" "target-cpu"="x86-64" }
