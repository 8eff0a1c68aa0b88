  %r = load { i8, ptr }, ptr %p, align 8
  %r = load { i64, ptr }, ptr %p, align 8
  %r = load { ptr, ptr }, ptr %p, align 8
  %r = load { ptr, i32 }, ptr %p, align 8
  %r = load [2 x ptr], ptr %p, align 8
  %r = load volatile { { ptr, i64 }, i8 }, ptr %p, align 8
  store { i8, ptr } %r, ptr %p, align 8
  %r = alloca { i8, ptr }, align 8
  %r = alloca [2 x ptr], align 8
  %r = getelementptr ptr, ptr %p, i64 1
  %r = getelementptr inbounds { i8, ptr }, ptr %p, i64 0, i32 1
  %r = ptrtoaddr ptr %p to i64
  %r = ptrtoint ptr %p to i64
  %r = inttoptr i64 %a to ptr
@r = private constant { ptr, i64 } { ptr @other, i64 1 }
  %r = load { [4 x i8], ptr }, ptr %p, align 8
  %r = load <2 x ptr>, ptr %p, align 16
