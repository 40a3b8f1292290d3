(module
  (func $fibonacci (export "fibonacci") (param i32) (result i32)
    local.get 0
    i32.const 2
    i32.lt_u
    if (result i32)
      local.get 0
    else
      local.get 0
      i32.const 1
      i32.sub
      call $fibonacci
      local.get 0
      i32.const 2
      i32.sub
      call $fibonacci
      i32.add
    end)
  (func (export "all") (result i32)
    i32.const 35
    call $fibonacci))
