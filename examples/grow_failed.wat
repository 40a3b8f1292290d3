;; grow_failed: the text of the module; assembled, it gives grow_failed.wasm byte for byte.
(module
  (type (;0;) (func))
  (type (;1;) (func (result i32)))
  (import "h" "f" (func (;0;) (type 0)))
  (func (;1;) (type 1) (result i32)
    call 0
    i32.const 3
    memory.grow)
  (memory (;0;) 4 10)
  (export "g" (func 1))
  (export "m" (memory 0)))
