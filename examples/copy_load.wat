;; copy_load: the text of the module; assembled, it gives copy_load.wasm byte for byte.
(module
  (type (;0;) (func))
  (type (;1;) (func (result i32)))
  (import "h" "f" (func (;0;) (type 0)))
  (func (;1;) (type 1) (result i32)
    call 0
    i32.const 0
    i32.const 8
    i32.const 4
    memory.copy
    i32.const 0
    i32.load
    i32.extend8_s)
  (memory (;0;) 1)
  (export "g" (func 1))
  (export "m" (memory 0)))
