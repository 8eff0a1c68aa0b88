; What the kit makes of such functions for aarch64: an answer of up to 16 bytes is in one or two registers, a longer one in memory. The text is one that was optimized.
source_filename = "rattle"
target datalayout = "e-m:e-p270:32:32-p271:32:32-p272:64:64-i8:8:32-i16:16:32-i64:64-i128:128-n32:64-S128-Fn32"
target triple = "aarch64-unknown-linux-gnu"

define i24 @give_bytes(i8 noundef %a0) local_unnamed_addr #0 {
start:
  %r3.i = add i8 %a0, 1
  %r4.i = add i8 %a0, 2
  %r0.sroa.3.0.insert.ext = zext i8 %r4.i to i24
  %r0.sroa.3.0.insert.shift = shl nuw i24 %r0.sroa.3.0.insert.ext, 16
  %r0.sroa.2.0.insert.ext = zext i8 %r3.i to i24
  %r0.sroa.2.0.insert.shift = shl nuw nsw i24 %r0.sroa.2.0.insert.ext, 8
  %r0.sroa.2.0.insert.insert = or disjoint i24 %r0.sroa.3.0.insert.shift, %r0.sroa.2.0.insert.shift
  %r0.sroa.0.0.insert.ext = zext i8 %a0 to i24
  %r0.sroa.0.0.insert.insert = or disjoint i24 %r0.sroa.2.0.insert.insert, %r0.sroa.0.0.insert.ext
  ret i24 %r0.sroa.0.0.insert.insert
}

define void @give_five(ptr noundef writeonly sret([24 x i8]) captures(none) initializes((0, 24)) %a0, i64 noundef %a1) local_unnamed_addr #1 {
start:
  %r5.i = add i64 %a1, 1
  %0 = trunc i64 %a1 to i32
  %r10.i = add i32 %0, 2
  store i64 %a1, ptr %a0, align 1
  %r0.sroa.3.0.a0.sroa_idx.i = getelementptr inbounds nuw i8, ptr %a0, i64 8
  store i64 %r5.i, ptr %r0.sroa.3.0.a0.sroa_idx.i, align 1
  %r0.sroa.4.0.a0.sroa_idx.i = getelementptr inbounds nuw i8, ptr %a0, i64 16
  store i32 %r10.i, ptr %r0.sroa.4.0.a0.sroa_idx.i, align 1
  %r0.sroa.5.0.a0.sroa_idx.i = getelementptr inbounds nuw i8, ptr %a0, i64 20
  store i32 0, ptr %r0.sroa.5.0.a0.sroa_idx.i, align 1
  ret void
}

define [2 x i64] @give_four(i64 noundef %a0) local_unnamed_addr #0 {
start:
  %r2.i = add i64 %a0, 1
  %r5.fca.0.insert = insertvalue [2 x i64] poison, i64 %a0, 0
  %r5.fca.1.insert = insertvalue [2 x i64] %r5.fca.0.insert, i64 %r2.i, 1
  ret [2 x i64] %r5.fca.1.insert
}

define noundef i64 @give_length(ptr noundef readnone captures(none) %a0, i64 noundef returned %a1) local_unnamed_addr #0 {
start:
  ret i64 %a1
}

define void @give_nothing(ptr noundef writeonly captures(none) initializes((0, 1)) %a0, i8 noundef %a1) local_unnamed_addr #1 {
start:
  store i8 %a1, ptr %a0, align 1
  ret void
}

define noundef i32 @give_one(i32 noundef returned %a0) local_unnamed_addr #0 {
start:
  ret i32 %a0
}

define void @give_six(ptr noundef writeonly sret([24 x i8]) captures(none) initializes((0, 24)) %a0, ptr noundef readnone captures(none) %a1, i64 noundef %a2, i64 noundef %a3, i32 noundef %a4, ptr noundef readnone captures(none) %a5, i64 noundef %a6) local_unnamed_addr #1 {
start:
  %r8.i = trunc i64 %a6 to i32
  store i32 %a4, ptr %a0, align 1
  %r0.sroa.3.0.a0.sroa_idx.i = getelementptr inbounds nuw i8, ptr %a0, i64 4
  store i32 0, ptr %r0.sroa.3.0.a0.sroa_idx.i, align 1
  %r0.sroa.31.0.a0.sroa_idx.i = getelementptr inbounds nuw i8, ptr %a0, i64 8
  store i64 %a3, ptr %r0.sroa.31.0.a0.sroa_idx.i, align 1
  %r0.sroa.4.0.a0.sroa_idx.i = getelementptr inbounds nuw i8, ptr %a0, i64 16
  store i32 %r8.i, ptr %r0.sroa.4.0.a0.sroa_idx.i, align 1
  %r0.sroa.5.0.a0.sroa_idx.i = getelementptr inbounds nuw i8, ptr %a0, i64 20
  store i32 0, ptr %r0.sroa.5.0.a0.sroa_idx.i, align 1
  ret void
}

define noundef i64 @give_size(i64 noundef returned %a0) local_unnamed_addr #0 {
start:
  ret i64 %a0
}

define [2 x i64] @give_three(i32 noundef %a0) local_unnamed_addr #0 {
start:
  %r1.i.i = add i32 %a0, 1
  %r1.i2.i = add i32 %a0, 2
  %r0.sroa.2.0.insert.ext = zext i32 %r1.i.i to i64
  %r0.sroa.2.0.insert.shift = shl nuw i64 %r0.sroa.2.0.insert.ext, 32
  %r0.sroa.0.0.insert.ext = zext i32 %a0 to i64
  %r0.sroa.0.0.insert.insert = or disjoint i64 %r0.sroa.2.0.insert.shift, %r0.sroa.0.0.insert.ext
  %r1.fca.0.insert = insertvalue [2 x i64] poison, i64 %r0.sroa.0.0.insert.insert, 0
  %r0.sroa.3.8.insert.ext = zext i32 %r1.i2.i to i64
  %r1.fca.1.insert = insertvalue [2 x i64] %r1.fca.0.insert, i64 %r0.sroa.3.8.insert.ext, 1
  ret [2 x i64] %r1.fca.1.insert
}

define i64 @give_two(i32 noundef %a0) local_unnamed_addr #0 {
start:
  %r1.i.i = add i32 %a0, 1
  %r0.sroa.2.0.insert.ext = zext i32 %r1.i.i to i64
  %r0.sroa.2.0.insert.shift = shl nuw i64 %r0.sroa.2.0.insert.ext, 32
  %r0.sroa.0.0.insert.ext = zext i32 %a0 to i64
  %r0.sroa.0.0.insert.insert = or disjoint i64 %r0.sroa.2.0.insert.shift, %r0.sroa.0.0.insert.ext
  ret i64 %r0.sroa.0.0.insert.insert
}

define noundef range(i64 0, 256) i64 @give_wide(i8 noundef %a0) local_unnamed_addr #0 {
start:
  %r1.i = zext i8 %a0 to i64
  ret i64 %r1.i
}

attributes #0 = { mustprogress nofree norecurse nosync nounwind willreturn memory(none) "frame-pointer"="non-leaf" "probe-stack"="inline-asm" "stack-probe-size"="3072" "target-cpu"="generic" }
attributes #1 = { mustprogress nofree norecurse nosync nounwind willreturn memory(argmem: write) "frame-pointer"="non-leaf" "probe-stack"="inline-asm" "stack-probe-size"="3072" "target-cpu"="generic" }
