;; c_buffers: the text of the module; assembled, it gives c_buffers.wasm byte for byte.
(module
  (type (;0;) (func (param i32 i32 i32) (result i32)))
  (type (;1;) (func (param i32) (result i32)))
  (type (;2;) (func (result i32)))
  (import "env" "read" (func (;0;) (type 0)))
  (func (;1;) (type 2) (result i32)
    (local i32)
    global.get 0
    i32.const 16
    i32.sub
    local.tee 0
    global.set 0
    local.get 0
    i32.const 4
    local.get 0
    i32.const 8
    i32.add
    call 0
    drop
    local.get 0
    i32.load
    local.get 0
    i32.load offset=8
    i32.add
    i32.const 1
    call_indirect (type 1)
    local.get 0
    i32.const 16
    i32.add
    global.set 0)
  (func (;2;) (type 1) (param i32) (result i32)
    local.get 0
    i32.const 1
    i32.shl)
  (table (;0;) 2 2 funcref)
  (memory (;0;) 2)
  (global (;0;) (mut i32) (i32.const 66560))
  (export "memory" (memory 0))
  (export "run" (func 1))
  (elem (;0;) (i32.const 1) func 2))
