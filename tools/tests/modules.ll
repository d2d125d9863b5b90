; Small modules for tools/wasm/retarget.py, one below each line `; === NAME`. tools/tests/modules.py says what is done with them. Each has a line
;
;   ; refused: WHY      it is refused, for this reason and no other
;   ; gives: NUMBER     it is taken, and its function `answer` gives this number: on x86-64 as it stands, and in WebAssembly as it is rewritten
;
; and where it is taken perhaps lines `; has: LINE`, each a line of the rewritten module. A module that names no target is for x86-64.

; === offset over an array of pointers
; refused: a `getelementptr` that is not over `i8`, in the line: %at = getelementptr [4 x ptr], ptr %a, i64 0, i64 1
define internal ptr @f(ptr %a) #0 {
  %at = getelementptr [4 x ptr], ptr %a, i64 0, i64 1
  ret ptr %at
}

; === offset over pointers
; refused: a `getelementptr` that is not over `i8`, in the line: %at = getelementptr inbounds ptr, ptr %a, i64 %n
define internal ptr @f(ptr %a, i64 %n) #0 {
  %at = getelementptr inbounds ptr, ptr %a, i64 %n
  ret ptr %at
}

; === offset in a struct
; refused: a `getelementptr` that is not over `i8`, in the line: %at = getelementptr inbounds nuw { ptr, i64 }, ptr %a, i32 0, i32 1
define internal ptr @f(ptr %a) #0 {
  %at = getelementptr inbounds nuw { ptr, i64 }, ptr %a, i32 0, i32 1
  ret ptr %at
}

; === offset in a struct that has a name
; refused: a `getelementptr` that is not over `i8`, in the line: %at = getelementptr %Pair, ptr %a, i32 0, i32 1
%Pair = type { ptr, i64 }
define internal ptr @f(ptr %a) #0 {
  %at = getelementptr %Pair, ptr %a, i32 0, i32 1
  ret ptr %at
}

; === offset over numbers
; refused: a `getelementptr` that is not over `i8`, in the line: %at = getelementptr i64, ptr %a, i64 1
define internal ptr @f(ptr %a) #0 {
  %at = getelementptr i64, ptr %a, i64 1
  ret ptr %at
}

; === offset in a constant
; refused: a `getelementptr` that is not over `i8`, in the line: store ptr getelementptr ([2 x ptr], ptr @table, i64 0, i64 1), ptr %a, align 8
@table = private constant <{ ptr, ptr }> <{ ptr @table, ptr null }>, align 8
define internal void @f(ptr %a) #0 {
  store ptr getelementptr ([2 x ptr], ptr @table, i64 0, i64 1), ptr %a, align 8
  ret void
}

; === offset in a constant with a range
; refused: a `getelementptr` that is not over `i8`, in the line: ret ptr getelementptr inrange(-8, 16) (ptr, ptr @table, i64 1)
@table = private constant <{ ptr, ptr }> <{ ptr @table, ptr null }>, align 8
define internal ptr @f() #0 {
  ret ptr getelementptr inrange(-8, 16) (ptr, ptr @table, i64 1)
}

; === size of a type by an offset from null
; refused: a `getelementptr` that is not over `i8`, in the line: ret i64 ptrtoint (ptr getelementptr ({ ptr, i64 }, ptr null, i64 1) to i64)
define internal i64 @f() #0 {
  ret i64 ptrtoint (ptr getelementptr ({ ptr, i64 }, ptr null, i64 1) to i64)
}

; === offset in a global
; refused: a pointer in a constant, in the line: @other = private constant <{ ptr }> <{ ptr getelementptr (ptr, ptr @table, i64 1) }>, align 8
@table = private constant <{ ptr, ptr }> <{ ptr @table, ptr null }>, align 8
@other = private constant <{ ptr }> <{ ptr getelementptr (ptr, ptr @table, i64 1) }>, align 8

; === room for a struct
; refused: an `alloca` of a type that holds a pointer, in the line: %a = alloca { ptr, i64 }, align 8
define internal void @f() #0 {
  %a = alloca { ptr, i64 }, align 8
  ret void
}

; === room for an array
; refused: an `alloca` of a type that holds a pointer, in the line: %a = alloca [4 x ptr], align 8
define internal void @f() #0 {
  %a = alloca [4 x ptr], align 8
  ret void
}

; === room for a struct that has a name
; refused: an `alloca` of a type that holds a pointer, in the line: %a = alloca [2 x %"a Pair"], align 8
%"a Pair" = type { i64, %Inner }
%Inner = type <{ i8, ptr }>
define internal void @f() #0 {
  %a = alloca [2 x %"a Pair"], align 8
  ret void
}

; === room for a vector
; refused: an `alloca` of a type that holds a pointer, in the line: %a = alloca <2 x ptr>, align 16
define internal void @f() #0 {
  %a = alloca <2 x ptr>, align 16
  ret void
}

; === load of an array
; refused: a `load` of a type that holds a pointer, in the line: %b = load [2 x ptr], ptr %a, align 8
define internal void @f(ptr %a) #0 {
  %b = load [2 x ptr], ptr %a, align 8
  ret void
}

; === load of a struct that has a name
; refused: a `load` of a type that holds a pointer, in the line: %b = load %Pair, ptr %a, align 8
%Pair = type { i64, [1 x ptr] }
define internal void @f(ptr %a) #0 {
  %b = load %Pair, ptr %a, align 8
  ret void
}

; === load of a vector
; refused: a `load` of a type that holds a pointer, in the line: %b = load <2 x ptr>, ptr %a, align 16
define internal void @f(ptr %a) #0 {
  %b = load <2 x ptr>, ptr %a, align 16
  ret void
}

; === load of a packed struct
; refused: a `load` of a type that holds a pointer, in the line: %b = load <{ ptr, i64 }>, ptr %a, align 8
define internal void @f(ptr %a) #0 {
  %b = load <{ ptr, i64 }>, ptr %a, align 8
  ret void
}

; === load of a struct with an array of pointers
; refused: a value of the kind [2 x ptr], in the line: %b = load { i64, [2 x ptr] }, ptr %a, align 8
define internal void @f(ptr %a) #0 {
  %b = load { i64, [2 x ptr] }, ptr %a, align 8
  ret void
}

; === load of a struct in a struct
; refused: a load or a store of a value of several parts, in the line: %b = load { { ptr, i64 }, i64 }, ptr %a, align 8
define internal void @f(ptr %a) #0 {
  %b = load { { ptr, i64 }, i64 }, ptr %a, align 8
  ret void
}

; === volatile load
; refused: a load or a store of a value of several parts, in the line: %b = load volatile { ptr, i64 }, ptr %a, align 8
define internal void @f(ptr %a) #0 {
  %b = load volatile { ptr, i64 }, ptr %a, align 8
  ret void
}

; === load of a processor's own type
; refused: the type x86_fp80 , ptr, in the line: %b = load x86_fp80, ptr %a, align 16
define internal void @f(ptr %a) #0 {
  %b = load x86_fp80, ptr %a, align 16
  ret void
}

; === load of a vector without a length
; refused: `vscale`, in the line: %b = load <vscale x 2 x i64>, ptr %a, align 16
define internal void @f(ptr %a) #0 {
  %b = load <vscale x 2 x i64>, ptr %a, align 16
  ret void
}

; === store of an array
; refused: a `store` of a type that holds a pointer, in the line: store [2 x ptr] %b, ptr %a, align 8
define internal void @f(ptr %a, [2 x ptr] %b) #0 {
  store [2 x ptr] %b, ptr %a, align 8
  ret void
}

; === store of a vector
; refused: a `store` of a type that holds a pointer, in the line: store <2 x ptr> %b, ptr %a, align 16
define internal void @f(ptr %a, <2 x ptr> %b) #0 {
  store <2 x ptr> %b, ptr %a, align 16
  ret void
}

; === store of a struct that has a name
; refused: a `store` of a type that holds a pointer, in the line: store %Pair %b, ptr %a, align 8
%Pair = type { ptr, i64 }
define internal void @f(ptr %a, %Pair %b) #0 {
  store %Pair %b, ptr %a, align 8
  ret void
}

; === store of a struct that is written out
; refused: a load or a store of a value of several parts, in the line: store { ptr, i64 } zeroinitializer, ptr %a, align 8
define internal void @f(ptr %a) #0 {
  store { ptr, i64 } zeroinitializer, ptr %a, align 8
  ret void
}

; === a copy of a struct as a parameter
; refused: `byval` of a type that holds a pointer, in the line: define internal void @f(ptr byval({ ptr, i64 }) align 8 %a) #0 {
define internal void @f(ptr byval({ ptr, i64 }) align 8 %a) #0 {
  ret void
}

; === a copy of a struct that has a name as a parameter
; refused: `byval` of a type that holds a pointer, in the line: call void @f(ptr byval(%Pair) %a)
%Pair = type { ptr, i64 }
declare void @f(ptr) #0
define internal void @g(ptr %a) #0 {
  call void @f(ptr byval(%Pair) %a)
  ret void
}

; === the result in memory
; refused: `sret` of a type that holds a pointer, in the line: define internal void @f(ptr sret(%Pair) align 8 %a) #0 {
%Pair = type { ptr, i64 }
define internal void @f(ptr sret(%Pair) align 8 %a) #0 {
  ret void
}

; === the result in memory of a function of others
; refused: `sret` of a type that holds a pointer, in the line: declare void @f(ptr noalias sret({ i64, ptr }) align 8) #0
declare void @f(ptr noalias sret({ i64, ptr }) align 8) #0

; === the result in memory of a call
; refused: `sret` of a type that holds a pointer, in the line: tail call void %g(ptr sret([2 x ptr]) %a)
define internal void @f(ptr %a, ptr %g) #0 {
  tail call void %g(ptr sret([2 x ptr]) %a)
  ret void
}

; === a parameter by reference
; refused: `byref` of a type that holds a pointer, in the line: define internal void @f(ptr byref({ ptr, i64 }) %a) #0 {
define internal void @f(ptr byref({ ptr, i64 }) %a) #0 {
  ret void
}

; === a parameter in the frame
; refused: `inalloca` of a type that holds a pointer, in the line: define internal void @f(ptr inalloca(<{ ptr, i64 }>) %a) #0 {
define internal void @f(ptr inalloca(<{ ptr, i64 }>) %a) #0 {
  ret void
}

; === a parameter in a frame that is made before
; refused: `preallocated` of a type that holds a pointer, in the line: define internal void @f(ptr preallocated(%Pair) %a) #0 {
%Pair = type { ptr, i64 }
define internal void @f(ptr preallocated(%Pair) %a) #0 {
  ret void
}

; === the type behind a parameter
; refused: `elementtype` of a type that holds a pointer, in the line: call void @g(ptr elementtype([2 x ptr]) %a)
declare void @g(ptr) #0
define internal void @f(ptr %a) #0 {
  call void @g(ptr elementtype([2 x ptr]) %a)
  ret void
}

; === a struct as the result of a function of others
; refused: a function of others with a type that holds a pointer, in the line: declare noundef { ptr, i64 } @f(i64 range(i64 0, 9)) #0
declare noundef { ptr, i64 } @f(i64 range(i64 0, 9)) #0

; === a struct for a function of others
; refused: a function of others with a type that holds a pointer, in the line: declare i64 @f(i64 range(i64 0, 9), %Pair) #0
%Pair = type { i64, ptr }
declare i64 @f(i64 range(i64 0, 9), %Pair) #0

; === a struct for a function that others call
; refused: a function of others with a type that holds a pointer, in the line: define i64 @f(ptr align 8 %a, { i64, ptr } %b) #0 "wasm-export-name"="f" {
define i64 @f(ptr align 8 %a, { i64, ptr } %b) #0 {
  ret i64 1
}

; === a load of a vector of pointers by a call
; refused: a function of others with a type that holds a pointer, in the line: declare <2 x ptr> @llvm.masked.load.v2p0.p0(ptr, <2 x i1>, <2 x ptr>) #0
declare <2 x ptr> @llvm.masked.load.v2p0.p0(ptr, <2 x i1>, <2 x ptr>) #0

; === any number of parameters
; refused: a function with any number of parameters, in the line: declare i32 @f(ptr, ...) #0
declare i32 @f(ptr, ...) #0

; === the list of any number of parameters
; refused: a function with any number of parameters, in the line: declare void @llvm.va_start.p0(ptr) #0
declare void @llvm.va_start.p0(ptr) #0

; === global of a struct that has a name
; refused: a global of a type that holds a pointer, in the line: @a = internal global %Pair zeroinitializer, align 8
%Pair = type { i64, ptr }
@a = internal global %Pair zeroinitializer, align 8

; === global of an array of structs that have a name
; refused: a global of a type that holds a pointer, in the line: @a = internal global [2 x %Pair] zeroinitializer, align 8
%Pair = type { i64, ptr }
@a = internal global [2 x %Pair] zeroinitializer, align 8

; === global of a packed struct that has a name
; refused: a global of a type that holds a pointer, in the line: @a = internal global <{ i64, %Pair }> zeroinitializer, align 8
%Pair = type { i64, ptr }
@a = internal global <{ i64, %Pair }> zeroinitializer, align 8

; === global of a struct that has a name, before 4 bytes
; refused: a global of a type that holds a pointer, in the line: @a = internal global <{ %Pair, [4 x i8] }> zeroinitializer, align 8
%Pair = type { i64, ptr }
@a = internal global <{ %Pair, [4 x i8] }> zeroinitializer, align 8

; === global of an array
; refused: a constant with pointers, in the line: @a = internal global [4 x ptr] zeroinitializer, align 8
@a = internal global [4 x ptr] zeroinitializer, align 8

; === global of a struct
; refused: a constant with pointers, in the line: @a = internal constant { ptr, i64 } { ptr null, i64 1 }, align 8
@a = internal constant { ptr, i64 } { ptr null, i64 1 }, align 8

; === global of a pointer
; refused: a constant with pointers, in the line: @a = internal global ptr null, align 8
@a = internal global ptr null, align 8

; === global of a packed struct in a packed struct
; refused: a global of a type that holds a pointer, in the line: @a = private constant <{ <{ ptr }>, i64 }> <{ <{ ptr }> <{ ptr null }>, i64 1 }>, align 8
@a = private constant <{ <{ ptr }>, i64 }> <{ <{ ptr }> <{ ptr null }>, i64 1 }>, align 8

; === global of others
; refused: a constant with pointers, in the line: @a = external global ptr, align 8
@a = external global ptr, align 8

; === the number of an address in a global
; refused: a constant with pointers, in the line: @b = private constant i64 ptrtoint (ptr @a to i64), align 8
@a = private constant i64 1, align 8
@b = private constant i64 ptrtoint (ptr @a to i64), align 8

; === the number of an address beside a pointer in a global
; refused: a global that has an address as a number, in the line: @b = private constant <{ i64, ptr, [4 x i8] }> <{ i64 ptrtoint (ptr @a to i64), ptr @a, [4 x i8] zeroinitializer }>, align 8
@a = private constant i64 1, align 8
@b = private constant <{ i64, ptr }> <{ i64 ptrtoint (ptr @a to i64), ptr @a }>, align 8

; === a pointer of a number in a global
; refused: a pointer in a constant, in the line: @b = private constant <{ ptr }> <{ ptr inttoptr (i64 8 to ptr) }>, align 8
@b = private constant <{ ptr }> <{ ptr inttoptr (i64 8 to ptr) }>, align 8

; === a second name
; refused: a constant with pointers, in the line: @b = alias i64, ptr @a
@a = private constant i64 1, align 8
@b = alias i64, ptr @a

; === global of a thread
; refused: a global, in the line: @a = internal thread_local global i64 1, align 8
@a = internal thread_local global i64 1, align 8

; === what runs at the start
; refused: a constant with pointers, in the line: @llvm.global_ctors = appending global [0 x { i32, ptr, ptr }] zeroinitializer
@llvm.global_ctors = appending global [0 x { i32, ptr, ptr }] zeroinitializer

; === pointers in an order with a sign
; refused: pointers that are compared with a sign, in the line: %c = icmp slt ptr %a, %b
define internal i1 @f(ptr %a, ptr %b) #0 {
  %c = icmp slt ptr %a, %b
  ret i1 %c
}

; === pointers of the same sign
; refused: pointers that are compared with a sign, in the line: %c = icmp samesign ult ptr %a, %b
define internal i1 @f(ptr %a, ptr %b) #0 {
  %c = icmp samesign ult ptr %a, %b
  ret i1 %c
}

; === a pointer of a number
; refused: `inttoptr`, in the line: %b = inttoptr i64 %a to ptr
define internal ptr @f(i64 %a) #0 {
  %b = inttoptr i64 %a to ptr
  ret ptr %b
}

; === a pointer of a number in a constant
; refused: `inttoptr`, in the line: ret ptr inttoptr (i64 8 to ptr)
define internal ptr @f() #0 {
  ret ptr inttoptr (i64 8 to ptr)
}

; === a number of a pointer with 32 bits
; refused: `ptrtoaddr`, in the line: %b = ptrtoaddr <2 x ptr> %a to <2 x i64>
define internal void @f(<2 x ptr> %a) #0 {
  %b = ptrtoaddr <2 x ptr> %a to <2 x i64>
  ret void
}

; === another address space
; refused: `addrspace`, in the line: %b = load ptr addrspace(272), ptr %a, align 8
define internal void @f(ptr %a) #0 {
  %b = load ptr addrspace(272), ptr %a, align 8
  ret void
}

; === the address of a block
; refused: `blockaddress`, in the line: store ptr blockaddress(@f, %b), ptr %a, align 8
define internal void @f(ptr %a) #0 {
  store ptr blockaddress(@f, %b), ptr %a, align 8
  br label %b
b:                                                ; preds = %0
  ret void
}

; === assembly
; refused: `asm`, in the line: call void asm sideeffect "", "r"(ptr %a)
define internal void @f(ptr %a) #0 {
  call void asm sideeffect "", "r"(ptr %a)
  ret void
}

; === an exchange of pointers
; refused: the instruction `atomicrmw`, in the line: %c = atomicrmw xchg ptr %a, ptr %b seq_cst, align 8
define internal void @f(ptr %a, ptr %b) #0 {
  %c = atomicrmw xchg ptr %a, ptr %b seq_cst, align 8
  ret void
}

; === a parameter of any number
; refused: `va_arg`, in the line: %b = va_arg ptr %a, i64
define internal void @f(ptr %a) #0 {
  %b = va_arg ptr %a, i64
  ret void
}

; === a call that may throw
; refused: the instruction `invoke`, in the line: invoke void %g()
define internal void @f(ptr %g) #0 personality ptr @p {
  invoke void %g()
          to label %b unwind label %c
b:                                                ; preds = %0
  ret void
c:                                                ; preds = %0
  %d = landingpad { ptr, i32 }
          cleanup
  ret void
}
declare i32 @p(...)

; === assembly of the module
; refused: a line, in the line: module asm ".globl a"
module asm ".globl a"

; === a set of sections
; refused: a line, in the line: $f = comdat any
$f = comdat any

; === a function of the processor's own
; refused: a call of llvm.x86.sse2.pause
declare void @llvm.x86.sse2.pause() #0

; === a shown function in another form
; refused: a function that others call, in the line: define i64 @f() nounwind {
define i64 @f() nounwind {
  ret i64 1
}

; === another processor
; refused: another triple than x86_64-unknown-linux-gnu
target datalayout = "e-m:e-p270:32:32-p271:32:32-p272:64:64-i64:64-i128:128-f80:128-n8:16:32:64-S128"
target triple = "i686-unknown-linux-gnu"

; === another layout
; refused: another datalayout than e-m:e-p270:32:32-p271:32:32-p272:64:64-i64:64-i128:128-f80:128-n8:16:32:64-S128
target datalayout = "e-m:e-p:32:32"
target triple = "x86_64-unknown-linux-gnu"

; === a pointer and a number
; gives: 1042
; has:   %part.4 = getelementptr i8, ptr %q, i64 8
; has:   %part.5 = load i64, ptr %part.4, align 8
@seven = private constant i64 42, align 8
define i64 @answer() #0 {
start:
  %room = alloca [32 x i8], align 8
  %q = getelementptr i8, ptr %room, i64 8
  store ptr @seven, ptr %q, align 8
  %second = getelementptr i8, ptr %room, i64 16
  store i64 1000, ptr %second, align 8
  %both = load { ptr, i64 }, ptr %q, align 8
  %a = extractvalue { ptr, i64 } %both, 0
  %b = extractvalue { ptr, i64 } %both, 1
  %c = load i64, ptr %a, align 8
  %d = add i64 %b, %c
  ret i64 %d
}

; === a number and a pointer
; gives: 47
@forty = private constant i64 40, align 8
define i64 @answer() #0 {
start:
  %room = alloca [16 x i8], align 8
  call void @put(ptr %room, i8 7, ptr @forty)
  %second = getelementptr inbounds nuw i8, ptr %room, i64 8
  %a = load ptr, ptr %second, align 8
  %b = load i8, ptr %room, align 8
  %c = load i64, ptr %a, align 8
  %d = zext i8 %b to i64
  %e = add i64 %c, %d
  ret i64 %e
}
define internal void @put(ptr %to, i8 %a, ptr %b) #0 {
  %one = insertvalue { i8, ptr } poison, i8 %a, 0
  %both = insertvalue { i8, ptr } %one, ptr %b, 1
  store { i8, ptr } %both, ptr %to, align 8
  ret void
}

; === loads and stores that stay
; gives: 13
@six = private constant i64 6, align 8
define i64 @answer() #0 {
start:
  %room = alloca [8 x i8], align 8
  store volatile ptr @six, ptr %room, align 8
  %a = load volatile ptr, ptr %room, align 8
  %b = load i64, ptr %a, align 8
  store volatile i64 7, ptr %room, align 8
  %c = load volatile i64, ptr %room, align 8
  %d = add i64 %b, %c
  ret i64 %d
}

; === two pointers
; gives: 35
@three = private constant i64 3, align 8
@five = private constant i64 5, align 8
define i64 @answer() #0 {
start:
  %room = alloca [16 x i8], align 8
  store ptr @three, ptr %room, align 8
  %second = getelementptr i8, ptr %room, i64 8
  store ptr @five, ptr %second, align 8
  %both = load { ptr, ptr }, ptr %room, align 8
  %a = extractvalue { ptr, ptr } %both, 0
  %b = extractvalue { ptr, ptr } %both, 1
  %c = load i64, ptr %a, align 8
  %d = load i64, ptr %b, align 8
  %e = mul i64 %d, 10
  %f = udiv i64 %e, %c
  %g = mul i64 %d, %c
  %h = add i64 %f, %g
  %i = add i64 %h, 4
  ret i64 %i
}

; === room for a pointer, which is copied with 8 bytes
; gives: 4096
; has:   %a = alloca [8 x i8], align 8
@four = private constant i64 4096, align 8
declare void @llvm.memcpy.p0.p0.i64(ptr, ptr, i64, i1)
define i64 @answer() #0 {
start:
  %a = alloca ptr, align 8
  %b = alloca ptr, align 8
  %c = alloca ptr, align 8
  call void @fill(ptr %a)
  call void @fill(ptr %b)
  call void @fill(ptr %c)
  call void @move(ptr %b, ptr %a)
  call void @clear(ptr %c)
  call void @clear(ptr %a)
  %d = load ptr, ptr %b, align 8
  %e = load i64, ptr %d, align 8
  ret i64 %e
}
define internal void @fill(ptr %a) #0 {
  store ptr @four, ptr %a, align 8
  ret void
}
define internal void @move(ptr %to, ptr %from) #0 {
  call void @llvm.memcpy.p0.p0.i64(ptr %to, ptr %from, i64 8, i1 false)
  ret void
}
define internal void @clear(ptr %a) #0 {
  store i64 -1, ptr %a, align 8
  ret void
}

; === room for pointers in a row
; gives: 321
; has:   %a = alloca [8 x i8], i64 3, align 8
@table = private constant [3 x i64] [i64 1, i64 20, i64 300], align 8
define i64 @answer() #0 {
start:
  %a = alloca ptr, i64 3, align 8
  call void @fill(ptr %a, i64 3)
  %b = call i64 @sum(ptr %a, i64 3)
  ret i64 %b
}
define internal void @fill(ptr %a, i64 %n) #0 {
start:
  br label %loop
loop:                                             ; preds = %loop, %start
  %i = phi i64 [ 0, %start ], [ %j, %loop ]
  %at = mul i64 %i, 8
  %from = getelementptr i8, ptr @table, i64 %at
  %to = getelementptr i8, ptr %a, i64 %at
  store ptr %from, ptr %to, align 8
  %j = add i64 %i, 1
  %more = icmp ult i64 %j, %n
  br i1 %more, label %loop, label %out
out:                                              ; preds = %loop
  ret void
}
define internal i64 @sum(ptr %a, i64 %n) #0 {
start:
  br label %loop
loop:                                             ; preds = %loop, %start
  %i = phi i64 [ 0, %start ], [ %j, %loop ]
  %s = phi i64 [ 0, %start ], [ %t, %loop ]
  %at = mul i64 %i, 8
  %from = getelementptr i8, ptr %a, i64 %at
  %p = load ptr, ptr %from, align 8
  %v = load i64, ptr %p, align 8
  %t = add i64 %s, %v
  %j = add i64 %i, 1
  %more = icmp ult i64 %j, %n
  br i1 %more, label %loop, label %out
out:                                              ; preds = %loop
  ret i64 %t
}

; === a copy of 24 bytes with pointers
; gives: 66
declare void @llvm.memmove.p0.p0.i64(ptr, ptr, i64, i1)
@six = private constant i64 6, align 8
define i64 @answer() #0 {
start:
  %a = alloca [24 x i8], align 8
  %b = alloca [24 x i8], align 8
  %a1 = getelementptr i8, ptr %a, i64 8
  %a2 = getelementptr i8, ptr %a, i64 16
  store ptr @six, ptr %a, align 8
  store i64 10, ptr %a1, align 8
  store ptr @six, ptr %a2, align 8
  call void @llvm.memmove.p0.p0.i64(ptr %b, ptr %a, i64 24, i1 false)
  %b1 = getelementptr i8, ptr %b, i64 8
  %one = load { ptr, i64 }, ptr %b, align 8
  %two = load { i64, ptr }, ptr %b1, align 8
  %p = extractvalue { ptr, i64 } %one, 0
  %n = extractvalue { ptr, i64 } %one, 1
  %q = extractvalue { i64, ptr } %two, 1
  %x = load i64, ptr %p, align 8
  %y = load i64, ptr %q, align 8
  %z = mul i64 %x, %n
  %w = add i64 %z, %y
  ret i64 %w
}

; === pointers in a global
; gives: 1119
; has: @table = private constant <{ ptr, [4 x i8], [8 x i8], ptr, [4 x i8], ptr, [4 x i8] }> <{ ptr getelementptr (i8, ptr @numbers, i64 8), [4 x i8] zeroinitializer, [8 x i8] c"\09\00\00\00\00\00\00\00", ptr @numbers, [4 x i8] zeroinitializer, ptr null, [4 x i8] zeroinitializer }>, align 8
@numbers = private constant [2 x i64] [i64 10, i64 1100], align 8
@table = private constant <{ ptr, [8 x i8], ptr, ptr }> <{ ptr getelementptr (i8, ptr @numbers, i64 8), [8 x i8] c"\09\00\00\00\00\00\00\00", ptr @numbers, ptr null }>, align 8
define i64 @answer() #0 {
start:
  %n = call i64 @sum(ptr @table)
  ret i64 %n
}
define internal i64 @sum(ptr noundef %t) #1 {
start:
  %a = load ptr, ptr %t, align 8
  %b1 = getelementptr i8, ptr %t, i64 8
  %b = load i64, ptr %b1, align 8
  %c1 = getelementptr i8, ptr %t, i64 16
  %c = load ptr, ptr %c1, align 8
  %d1 = getelementptr i8, ptr %t, i64 24
  %d = load ptr, ptr %d1, align 8
  %is_null = icmp eq ptr %d, null
  br i1 %is_null, label %"as it is", label %wrong
"as it is":                                       ; preds = %start
  %x = load i64, ptr %a, align 8
  %y = load i64, ptr %c, align 8
  %s = add i64 %x, %y
  %r = add i64 %s, %b
  ret i64 %r
wrong:                                            ; preds = %start
  ret i64 0
}

; === a struct from one function of the module to another
; gives: 77
@seven = private constant i64 7, align 8
define i64 @answer() #0 {
start:
  %a = call { ptr, i64 } @make(i64 70)
  %b = call i64 @use({ ptr, i64 } %a, i1 true)
  ret i64 %b
}
define internal noundef { ptr, i64 } @make(i64 %n) #1 {
  %one = insertvalue { ptr, i64 } poison, ptr @seven, 0
  %both = insertvalue { ptr, i64 } %one, i64 %n, 1
  ret { ptr, i64 } %both
}
define internal i64 @use({ ptr, i64 } %a, i1 %is) #1 {
start:
  switch i1 %is, label %no [
    i1 true, label %yes
  ]
yes:                                              ; preds = %start
  br label %no
no:                                               ; preds = %yes, %start
  %it = phi { ptr, i64 } [ %a, %yes ], [ zeroinitializer, %start ]
  %p = extractvalue { ptr, i64 } %it, 0
  %n = extractvalue { ptr, i64 } %it, 1
  %x = load i64, ptr %p, align 8
  %s = add i64 %x, %n
  ret i64 %s
}

; === memory for a result and a copy, by their bytes
; gives: 25
@five = private constant i64 5, align 8
define i64 @answer() #0 {
start:
  %room = alloca [16 x i8], align 8
  call void @make(ptr sret([16 x i8]) align 8 %room)
  %a = call i64 @use(ptr byval([16 x i8]) align 8 %room)
  ret i64 %a
}
define internal void @make(ptr noalias sret([16 x i8]) align 8 %to) #1 {
  store ptr @five, ptr %to, align 8
  %second = getelementptr i8, ptr %to, i64 8
  store i64 20, ptr %second, align 8
  ret void
}
define internal i64 @use(ptr byval([16 x i8]) align 8 %from) #1 {
  %both = load { ptr, i64 }, ptr %from, align 8
  %p = extractvalue { ptr, i64 } %both, 0
  %n = extractvalue { ptr, i64 } %both, 1
  %x = load i64, ptr %p, align 8
  %s = add i64 %x, %n
  ret i64 %s
}

; === types without a pointer
; gives: 51
%Both = type { i32, i64 }
define i64 @answer() #0 {
start:
  %a = alloca %Both, align 8
  %b = alloca [2 x i64], align 8
  %c = alloca <4 x i32>, align 16
  store %Both { i32 1, i64 50 }, ptr %a, align 8
  store [2 x i64] zeroinitializer, ptr %b, align 8
  store <4 x i32> zeroinitializer, ptr %c, align 16
  %d = load { i32, i64 }, ptr %a, align 8
  %x = extractvalue { i32, i64 } %d, 0
  %y = extractvalue { i32, i64 } %d, 1
  %w = zext i32 %x to i64
  %s = add i64 %w, %y
  ret i64 %s
}

; === pointers in a vector that is in no memory
; gives: 9
@nine = private constant i64 9, align 8
define i64 @answer() #0 {
start:
  %a = insertelement <2 x ptr> poison, ptr @nine, i64 1
  %b = extractelement <2 x ptr> %a, i64 1
  %c = load i64, ptr %b, align 8
  ret i64 %c
}

; === numbers of pointers, and their order
; gives: 17
; has:   %x = ptrtoint ptr %a to i64
define i64 @answer() #0 {
start:
  %a = alloca [32 x i8], align 8
  %b = getelementptr i8, ptr %a, i64 24
  %c = getelementptr i8, ptr %b, i64 -8
  %x = ptrtoaddr ptr %a to i64
  %y = ptrtoaddr ptr %c to i64
  %d = sub i64 %y, %x
  %e = icmp ult ptr %a, %c
  %f = zext i1 %e to i64
  %g = add i64 %d, %f
  ret i64 %g
}

; === texts that only look like places
; gives: 112
@text = private unnamed_addr constant [47 x i8] c"ptr inttoptr; getelementptr [4 x ptr] @a addrsp", align 1
@"load ptr, ptr" = private constant <{ [8 x i8], ptr }> <{ [8 x i8] c"ptr, ptr", ptr @text }>, align 8
define i64 @answer() #0 {
start:
  %a = getelementptr i8, ptr @"load ptr, ptr", i64 8
  %b = load ptr, ptr %a, align 8
  %c = load i8, ptr %b, align 1
  %d = zext i8 %c to i64
  ret i64 %d
}

; === a shuffle of bytes
; gives: 5569915143682392129
; has:   %part.1 = and <16 x i8> %i, splat (i8 -113)
; has:   %b = call <16 x i8> @llvm.wasm.swizzle(<16 x i8> %a, <16 x i8> %part.1)
declare <16 x i8> @llvm.x86.ssse3.pshuf.b.128(<16 x i8>, <16 x i8>) #0
@given = private constant [32 x i8] c"ABCDEFGHIJKLMNOP\00\80\01\81\0F\7F\1B\2C\00\00\00\00\00\00\00\00", align 16
define i64 @answer() #0 {
start:
  %p = call ptr @same(ptr @given)
  %q = getelementptr i8, ptr %p, i64 16
  %a = load <16 x i8>, ptr %p, align 16
  %i = load <16 x i8>, ptr %q, align 16
  %b = call <16 x i8> @llvm.x86.ssse3.pshuf.b.128(<16 x i8> %a, <16 x i8> %i)
  %c = bitcast <16 x i8> %b to <2 x i64>
  %d = extractelement <2 x i64> %c, i64 0
  ret i64 %d
}
define internal ptr @same(ptr %p) #1 {
  ret ptr %p
}
