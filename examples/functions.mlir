"builtin.module"() ({
  "llvm.func"() <{function_type = !llvm.func<i32 (i32, i32)>, sym_name = "gcd"}> ({
  ^bb0(%a: i32, %b: i32):
    %zero = "llvm.mlir.constant"() <{value = 0 : i32}> : () -> i32
    "llvm.br"(%b, %a)[^bb1] : (i32, i32) -> ()
  ^bb1(%c: i32, %d: i32):
    %goes = "llvm.icmp"(%c, %zero) <{predicate = 1 : i64}> : (i32, i32) -> i1
    "llvm.cond_br"(%goes)[^bb2, ^bb3] <{operandSegmentSizes = array<i32: 1, 0, 0>}> : (i1) -> ()
  ^bb2:
    %rest = "llvm.urem"(%d, %c) : (i32, i32) -> i32
    "llvm.br"(%rest, %c)[^bb1] : (i32, i32) -> ()
  ^bb3:
    "llvm.return"(%d) : (i32) -> ()
  }) : () -> ()
  "llvm.func"() <{function_type = !llvm.func<i32 (ptr)>, sym_name = "count"}> ({
  ^bb0(%p: !llvm.ptr):
    %one = "llvm.mlir.constant"() <{value = 1 : i32}> : () -> i32
    %old = "llvm.load"(%p) <{ordering = 0 : i64}> : (!llvm.ptr) -> i32
    %new = "llvm.add"(%old, %one) <{overflowFlags = 1 : i32}> : (i32, i32) -> i32
    "llvm.store"(%new, %p) <{ordering = 0 : i64}> : (i32, !llvm.ptr) -> ()
    "llvm.return"(%new) : (i32) -> ()
  }) : () -> ()
}) : () -> ()
