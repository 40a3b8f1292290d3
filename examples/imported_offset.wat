;; imported_offset: the text of the module; assembled, it gives imported_offset.wasm byte for byte.
(module
  (type (;0;) (func (result i32)))
  (import "h" "b" (global (;0;) i32))
  (func (;0;) (type 0) (result i32)
    i32.const 16
    i32.load8_u)
  (memory (;0;) 1)
  (export "g" (func 0))
  (data (;0;) (global.get 0) "A"))
