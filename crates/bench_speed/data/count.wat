(module
  (func $count (export "count") (param i32) (local i32)
    loop
      local.get 1
      i32.const 1
      i32.add
      local.set 1
      local.get 1
      local.get 0
      i32.lt_u
      br_if 0
    end)
  (func (export "all")
    i32.const 50000000
    call $count))
