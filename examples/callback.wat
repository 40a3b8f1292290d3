;; callback: this shows the module and is not its source, which is callback.c; in callback.wasm some numbers are longer than they need be.
(module
  (type (;0;) (func (param i32 i32) (result i32)))
  (type (;1;) (func (param i32) (result i32)))
  (type (;2;) (func (param i32)))
  (import "env" "register" (func (;0;) (type 1)))
  (func (;1;) (type 2) (param i32)
    i32.const 0
    i32.const 0
    i32.load offset=1024
    local.get 0
    i32.add
    i32.store offset=1024)
  (func (;2;) (type 1) (param i32) (result i32)
    (local i32 i32 i32 i32)
    i32.const 0
    local.set 1
    i32.const 1040
    local.set 2
    i32.const 4
    call 0
    local.set 3
    i32.const 0
    local.set 4
    loop  ;; label = @1
      local.get 2
      local.get 0
      local.get 1
      i32.add
      i32.store
      local.get 2
      local.get 1
      local.get 3
      call_indirect (type 0)
      local.get 2
      i32.load
      i32.mul
      local.get 4
      i32.add
      local.set 4
      local.get 2
      i32.const 4
      i32.add
      local.set 2
      local.get 1
      i32.const 1
      i32.add
      local.tee 1
      i32.const 4
      i32.ne
      br_if 0 (;@1;)
    end
    i32.const 0
    i32.load offset=1024
    local.get 4
    i32.add)
  (table (;0;) 1 funcref)
  (memory (;0;) 2)
  (global (;0;) (mut i32) (i32.const 66592))
  (export "memory" (memory 0))
  (export "add" (func 1))
  (export "run" (func 2))
  (export "__indirect_function_table" (table 0)))
