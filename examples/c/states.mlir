#loop_unroll = #llvm.loop_unroll<disable = true>
#tbaa_root = #llvm.tbaa_root<id = "Simple C/C++ TBAA">
#loop_annotation = #llvm.loop_annotation<unroll = #loop_unroll, mustProgress = true>
#tbaa_type_desc = #llvm.tbaa_type_desc<id = "omnipotent char", members = {<#tbaa_root, 0>}>
#tbaa_type_desc1 = #llvm.tbaa_type_desc<id = "any pointer", members = {<#tbaa_type_desc, 0>}>
#tbaa_type_desc2 = #llvm.tbaa_type_desc<id = "p1 _ZTS8_IO_FILE", members = {<#tbaa_type_desc1, 0>}>
#tbaa_tag = #llvm.tbaa_tag<base_type = #tbaa_type_desc2, access_type = #tbaa_type_desc2, offset = 0>
"builtin.module"() ({
  "llvm.mlir.global"() <{addr_space = 0 : i32, alignment = 1 : i64, constant, dso_local, global_type = !llvm.array<32 x i8>, linkage = #llvm.linkage<private>, sym_name = ".str", unnamed_addr = 2 : i64, value = "%d words, %d numbers, %d lines\0A\00", visibility_ = 0 : i64}> ({
  }) : () -> ()
  "llvm.mlir.global"() <{addr_space = 0 : i32, alignment = 8 : i64, global_type = !llvm.ptr, linkage = #llvm.linkage<external>, sym_name = "stdin", unnamed_addr = 0 : i64, visibility_ = 0 : i64}> ({
  }) : () -> ()
  "llvm.module_flags"() <{flags = [#llvm.mlir.module_flag<error, "wchar_size", 4 : i32>, #llvm.mlir.module_flag<min, "PIC Level", 2 : i32>, #llvm.mlir.module_flag<max, "PIE Level", 2 : i32>, #llvm.mlir.module_flag<max, "uwtable", 2 : i32>]}> : () -> ()
  "llvm.func"() <{CConv = #llvm.cconv<ccc>, dso_local, function_type = !llvm.func<i32 ()>, linkage = #llvm.linkage<external>, no_unwind, passthrough = [["min-legal-vector-width", "0"], ["no-trapping-math", "true"], ["stack-protector-buffer-size", "8"], ["target-cpu", "x86-64"]], sym_name = "main", target_cpu = "x86-64", target_features = #llvm.target_features<["+cmov", "+cx8", "+fxsr", "+mmx", "+sse", "+sse2", "+x87"]>, tune_cpu = "generic", unnamed_addr = 0 : i64, uwtable_kind = #llvm.uwtableKind<async>, visibility_ = 0 : i64}> ({
    %22 = "llvm.mlir.constant"() <{value = 0 : i32}> : () -> i32
    %23 = "llvm.mlir.constant"() <{value = 1048576 : i32}> : () -> i32
    %24 = "llvm.mlir.constant"() <{value = -1 : i32}> : () -> i32
    %25 = "llvm.mlir.constant"() <{value = 2 : i32}> : () -> i32
    %26 = "llvm.mlir.constant"() <{value = 1 : i32}> : () -> i32
    %27 = "llvm.mlir.constant"() <{value = 10 : i32}> : () -> i32
    %28 = "llvm.mlir.addressof"() <{global_name = @".str"}> : () -> !llvm.ptr
    "llvm.br"(%22, %22, %22, %22, %22)[^bb1] : (i32, i32, i32, i32, i32) -> ()
  ^bb1(%29: i32, %30: i32, %31: i32, %32: i32, %33: i32):  // 2 preds: ^bb0, ^bb12
    %34 = "llvm.icmp"(%32, %23) <{predicate = 2 : i64}> : (i32, i32) -> i1
    "llvm.cond_br"(%34)[^bb3, ^bb2] <{operandSegmentSizes = array<i32: 1, 0, 0>}> : (i1) -> ()
  ^bb2:  // pred: ^bb1
    "llvm.br"(%29, %30, %31)[^bb13] : (i32, i32, i32) -> ()
  ^bb3:  // pred: ^bb1
    %35 = "llvm.call"() <{CConv = #llvm.cconv<ccc>, TailCallKind = #llvm.tailcallkind<none>, callee = @getchar, fastmathFlags = #llvm.fastmath<none>, op_bundle_sizes = array<i32>, operandSegmentSizes = array<i32: 0, 0>}> : () -> i32
    %36 = "llvm.icmp"(%35, %24) <{predicate = 0 : i64}> : (i32, i32) -> i1
    "llvm.cond_br"(%36)[^bb4, ^bb5] <{operandSegmentSizes = array<i32: 1, 0, 0>}> : (i1) -> ()
  ^bb4:  // pred: ^bb3
    "llvm.br"(%29, %30, %31, %25, %33)[^bb10] : (i32, i32, i32, i32, i32) -> ()
  ^bb5:  // pred: ^bb3
    %37 = "llvm.call"(%33, %35) <{CConv = #llvm.cconv<ccc>, TailCallKind = #llvm.tailcallkind<none>, arg_attrs = [{llvm.noundef}, {llvm.noundef}], callee = @next, fastmathFlags = #llvm.fastmath<none>, op_bundle_sizes = array<i32>, operandSegmentSizes = array<i32: 2, 0>}> : (i32, i32) -> i32
    "llvm.switch"(%37)[^bb8, ^bb6, ^bb7] <{case_operand_segments = array<i32: 0, 0>, case_values = dense<[1, 2]> : vector<2xi32>, operandSegmentSizes = array<i32: 1, 0, 0>}> : (i32) -> ()
  ^bb6:  // pred: ^bb5
    %38 = "llvm.icmp"(%33, %26) <{predicate = 1 : i64}> : (i32, i32) -> i1
    %39 = "llvm.zext"(%38) : (i1) -> i32
    %40 = "llvm.add"(%31, %39) <{overflowFlags = 1 : i32}> : (i32, i32) -> i32
    "llvm.br"(%29, %30, %40)[^bb9] : (i32, i32, i32) -> ()
  ^bb7:  // pred: ^bb5
    %41 = "llvm.icmp"(%33, %25) <{predicate = 1 : i64}> : (i32, i32) -> i1
    %42 = "llvm.zext"(%41) : (i1) -> i32
    %43 = "llvm.add"(%29, %42) <{overflowFlags = 1 : i32}> : (i32, i32) -> i32
    "llvm.br"(%43, %30, %31)[^bb9] : (i32, i32, i32) -> ()
  ^bb8:  // pred: ^bb5
    %44 = "llvm.icmp"(%35, %27) <{predicate = 0 : i64}> : (i32, i32) -> i1
    %45 = "llvm.zext"(%44) : (i1) -> i32
    %46 = "llvm.add"(%30, %45) <{overflowFlags = 1 : i32}> : (i32, i32) -> i32
    "llvm.br"(%29, %46, %31)[^bb9] : (i32, i32, i32) -> ()
  ^bb9(%47: i32, %48: i32, %49: i32):  // 3 preds: ^bb6, ^bb7, ^bb8
    "llvm.br"(%47, %48, %49, %22, %37)[^bb10] : (i32, i32, i32, i32, i32) -> ()
  ^bb10(%50: i32, %51: i32, %52: i32, %53: i32, %54: i32):  // 2 preds: ^bb4, ^bb9
    "llvm.switch"(%53, %50, %51, %52)[^bb13, ^bb11] <{case_operand_segments = array<i32: 0>, case_values = dense<0> : vector<1xi32>, operandSegmentSizes = array<i32: 1, 3, 0>}> : (i32, i32, i32, i32) -> ()
  ^bb11:  // pred: ^bb10
    "llvm.br"()[^bb12] : () -> ()
  ^bb12:  // pred: ^bb11
    %55 = "llvm.add"(%32, %26) <{overflowFlags = 1 : i32}> : (i32, i32) -> i32
    "llvm.br"(%50, %51, %52, %55, %54)[^bb1] <{loop_annotation = #loop_annotation}> : (i32, i32, i32, i32, i32) -> ()
  ^bb13(%56: i32, %57: i32, %58: i32):  // 2 preds: ^bb2, ^bb10
    "llvm.br"()[^bb14] : () -> ()
  ^bb14:  // pred: ^bb13
    %59 = "llvm.call"(%28, %58, %56, %57) <{CConv = #llvm.cconv<ccc>, TailCallKind = #llvm.tailcallkind<none>, arg_attrs = [{llvm.noundef}, {llvm.noundef}, {llvm.noundef}, {llvm.noundef}], callee = @printf, fastmathFlags = #llvm.fastmath<none>, op_bundle_sizes = array<i32>, operandSegmentSizes = array<i32: 4, 0>, var_callee_type = !llvm.func<i32 (ptr, ...)>}> : (!llvm.ptr, i32, i32, i32) -> i32
    "llvm.return"(%22) : (i32) -> ()
  }) : () -> ()
  "llvm.func"() <{CConv = #llvm.cconv<ccc>, function_type = !llvm.func<i32 ()>, inline_hint, linkage = #llvm.linkage<available_externally>, no_unwind, passthrough = [["min-legal-vector-width", "0"], ["no-trapping-math", "true"], ["stack-protector-buffer-size", "8"], ["target-cpu", "x86-64"]], sym_name = "getchar", target_cpu = "x86-64", target_features = #llvm.target_features<["+cmov", "+cx8", "+fxsr", "+mmx", "+sse", "+sse2", "+x87"]>, tune_cpu = "generic", unnamed_addr = 0 : i64, uwtable_kind = #llvm.uwtableKind<async>, visibility_ = 0 : i64}> ({
    %19 = "llvm.mlir.addressof"() <{global_name = @stdin}> : () -> !llvm.ptr
    %20 = "llvm.load"(%19) <{alignment = 8 : i64, ordering = 0 : i64, tbaa = [#tbaa_tag]}> : (!llvm.ptr) -> !llvm.ptr
    %21 = "llvm.call"(%20) <{CConv = #llvm.cconv<ccc>, TailCallKind = #llvm.tailcallkind<none>, arg_attrs = [{llvm.noundef}], callee = @getc, fastmathFlags = #llvm.fastmath<none>, op_bundle_sizes = array<i32>, operandSegmentSizes = array<i32: 1, 0>}> : (!llvm.ptr) -> i32
    "llvm.return"(%21) : (i32) -> ()
  }) : () -> ()
  "llvm.func"() <{CConv = #llvm.cconv<ccc>, arg_attrs = [{llvm.noundef}, {llvm.noundef}], dso_local, function_type = !llvm.func<i32 (i32, i32)>, linkage = #llvm.linkage<internal>, no_unwind, passthrough = [["min-legal-vector-width", "0"], ["no-trapping-math", "true"], ["stack-protector-buffer-size", "8"], ["target-cpu", "x86-64"]], sym_name = "next", target_cpu = "x86-64", target_features = #llvm.target_features<["+cmov", "+cx8", "+fxsr", "+mmx", "+sse", "+sse2", "+x87"]>, tune_cpu = "generic", unnamed_addr = 0 : i64, uwtable_kind = #llvm.uwtableKind<async>, visibility_ = 0 : i64}> ({
  ^bb0(%arg0: i32, %arg1: i32):
    %0 = "llvm.mlir.constant"() <{value = 48 : i32}> : () -> i32
    %1 = "llvm.mlir.constant"() <{value = 57 : i32}> : () -> i32
    %2 = "llvm.mlir.constant"() <{value = 97 : i32}> : () -> i32
    %3 = "llvm.mlir.constant"() <{value = 122 : i32}> : () -> i32
    %4 = "llvm.mlir.constant"() <{value = 65 : i32}> : () -> i32
    %5 = "llvm.mlir.constant"() <{value = 90 : i32}> : () -> i32
    %6 = "llvm.mlir.constant"() <{value = 0 : i32}> : () -> i32
    %7 = "llvm.mlir.constant"() <{value = 1 : i32}> : () -> i32
    %8 = "llvm.mlir.constant"() <{value = 2 : i32}> : () -> i32
    %9 = "llvm.icmp"(%arg1, %0) <{predicate = 5 : i64}> : (i32, i32) -> i1
    "llvm.cond_br"(%9)[^bb1, ^bb3] <{operandSegmentSizes = array<i32: 1, 0, 0>}> : (i1) -> ()
  ^bb1:  // pred: ^bb0
    %10 = "llvm.icmp"(%arg1, %1) <{predicate = 3 : i64}> : (i32, i32) -> i1
    "llvm.cond_br"(%10)[^bb2, ^bb3] <{operandSegmentSizes = array<i32: 1, 0, 0>}> : (i1) -> ()
  ^bb2:  // pred: ^bb1
    %11 = "llvm.icmp"(%arg0, %7) <{predicate = 0 : i64}> : (i32, i32) -> i1
    %12 = "llvm.zext"(%11) : (i1) -> i64
    %13 = "llvm.select"(%11, %7, %8) <{fastmathFlags = #llvm.fastmath<none>}> : (i1, i32, i32) -> i32
    "llvm.br"(%13)[^bb9] : (i32) -> ()
  ^bb3:  // 2 preds: ^bb0, ^bb1
    %14 = "llvm.icmp"(%arg1, %2) <{predicate = 5 : i64}> : (i32, i32) -> i1
    "llvm.cond_br"(%14)[^bb4, ^bb5] <{operandSegmentSizes = array<i32: 1, 0, 0>}> : (i1) -> ()
  ^bb4:  // pred: ^bb3
    %15 = "llvm.icmp"(%arg1, %3) <{predicate = 3 : i64}> : (i32, i32) -> i1
    "llvm.cond_br"(%15)[^bb7, ^bb5] <{operandSegmentSizes = array<i32: 1, 0, 0>}> : (i1) -> ()
  ^bb5:  // 2 preds: ^bb3, ^bb4
    %16 = "llvm.icmp"(%arg1, %4) <{predicate = 5 : i64}> : (i32, i32) -> i1
    "llvm.cond_br"(%16)[^bb6, ^bb8] <{operandSegmentSizes = array<i32: 1, 0, 0>}> : (i1) -> ()
  ^bb6:  // pred: ^bb5
    %17 = "llvm.icmp"(%arg1, %5) <{predicate = 3 : i64}> : (i32, i32) -> i1
    "llvm.cond_br"(%17)[^bb7, ^bb8] <{operandSegmentSizes = array<i32: 1, 0, 0>}> : (i1) -> ()
  ^bb7:  // 2 preds: ^bb4, ^bb6
    "llvm.br"(%7)[^bb9] : (i32) -> ()
  ^bb8:  // 2 preds: ^bb5, ^bb6
    "llvm.br"(%6)[^bb9] : (i32) -> ()
  ^bb9(%18: i32):  // 3 preds: ^bb2, ^bb7, ^bb8
    "llvm.return"(%18) : (i32) -> ()
  }) : () -> ()
  "llvm.func"() <{CConv = #llvm.cconv<ccc>, arg_attrs = [{llvm.noundef}], function_type = !llvm.func<i32 (ptr, ...)>, linkage = #llvm.linkage<external>, passthrough = [["no-trapping-math", "true"], ["stack-protector-buffer-size", "8"], ["target-cpu", "x86-64"]], sym_name = "printf", target_cpu = "x86-64", target_features = #llvm.target_features<["+cmov", "+cx8", "+fxsr", "+mmx", "+sse", "+sse2", "+x87"]>, tune_cpu = "generic", unnamed_addr = 0 : i64, visibility_ = 0 : i64}> ({
  }) : () -> ()
  "llvm.func"() <{CConv = #llvm.cconv<ccc>, arg_attrs = [{llvm.noundef}], function_type = !llvm.func<i32 (ptr)>, linkage = #llvm.linkage<external>, passthrough = [["no-trapping-math", "true"], ["stack-protector-buffer-size", "8"], ["target-cpu", "x86-64"]], sym_name = "getc", target_cpu = "x86-64", target_features = #llvm.target_features<["+cmov", "+cx8", "+fxsr", "+mmx", "+sse", "+sse2", "+x87"]>, tune_cpu = "generic", unnamed_addr = 0 : i64, visibility_ = 0 : i64}> ({
  }) : () -> ()
}) {dlti.dl_spec = #dlti.dl_spec<!llvm.ptr<270> = dense<32> : vector<4xi64>, !llvm.ptr<271> = dense<32> : vector<4xi64>, !llvm.ptr<272> = dense<64> : vector<4xi64>, i64 = dense<64> : vector<2xi64>, i128 = dense<128> : vector<2xi64>, f80 = dense<128> : vector<2xi64>, !llvm.ptr = dense<64> : vector<4xi64>, i1 = dense<8> : vector<2xi64>, i8 = dense<8> : vector<2xi64>, i16 = dense<16> : vector<2xi64>, i32 = dense<32> : vector<2xi64>, f16 = dense<16> : vector<2xi64>, f64 = dense<64> : vector<2xi64>, f128 = dense<128> : vector<2xi64>, "dlti.endianness" = "little", "dlti.mangling_mode" = "e", "dlti.legal_int_widths" = array<i32: 8, 16, 32, 64>, "dlti.stack_alignment" = 128 : i64>, llvm.ident = "Debian clang version 22.1.8 (1~deb12u1)", llvm.module_asm = [], llvm.target_triple = "x86_64-pc-linux-gnu"} : () -> ()

