source_filename = "trial"
target triple = "x86_64-unknown-linux-gnu"

@static.0 = private global [1 x i8] zeroinitializer, align 1
@static.1 = private unnamed_addr constant [2 x i8] c"ab", align 1
@table = private constant <{ ptr, [8 x i8] }> <{ ptr @"x::bound", [8 x i8] zeroinitializer }>, align 8

define i32 @main() #0 {
  call void @"x::one"(i64 1)
  call void @"x::two"(i64 2)
  %r0 = load i8, ptr @static.0, align 1
  ret i32 0
}

define internal void @"x::one"(i64 noundef %a0) #0 {
; LONG
  call void @"x::small"(ptr @static.1)
  call void @"x::inner"(i64 %a0)
  ret void
}

define internal void @"x::inner"(i64 noundef %a0) #0 {
; LONG
  store i8 0, ptr @static.0, align 1
  ret void
}

define internal void @"x::two"(i64 noundef %a0) #0 {
; LONG
  call void @"x::small"(ptr @table)
  call void @"x::one"(i64 %a0)
  ret void
}

define internal void @"x::small"(ptr %a0) #0 {
  %r0 = alloca i8, align 1
  call void @llvm.memset.p0.i64(ptr %r0, i8 -86, i64 1, i1 false)
  ret void
}

define internal void @"x::bound"(i64 %a0) #0 {
; LONG
  call void @"x::small"(ptr @static.0)
  ret void
}

define internal void @"x::unused"() #0 {
  ret void
}

declare void @llvm.memset.p0.i64(ptr, i8, i64, i1) #0

attributes #0 = { nounwind }
