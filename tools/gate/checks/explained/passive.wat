(module (memory 1) (data $d "abc")
  (func $init (export "f") i32.const 0 i32.const 0 i32.const 3 memory.init $d))
