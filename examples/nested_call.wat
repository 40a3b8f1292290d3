;; nested_call: the text of the module; assembled, it gives nested_call.wasm byte for byte.
(module
  (type (;0;) (func (result i32)))
  (import "h" "f" (func (;0;) (type 0)))
  (func (;1;) (type 0) (result i32)
    call 0
    i32.const 0
    i32.load8_u
    i32.add)
  (func (;2;) (type 0) (result i32)
    call 0)
  (memory (;0;) 1)
  (export "g" (func 1))
  (export "e" (func 2))
  (export "m" (memory 0)))
