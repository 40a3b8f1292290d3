(module (func $sum (export "f") (param i32) (result i32)
  local.get 0 local.get 0 (block (param i32 i32) (result i32) i32.add)))
