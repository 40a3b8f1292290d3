;; grow_access: the text of the module; assembled, it gives grow_access.wasm byte for byte.
(module
  (type (;0;) (func))
  (import "h" "f" (func (;0;) (type 0)))
  (func (;1;) (type 0)
    call 0
    i32.const 65536
    i32.const 9
    i32.store8)
  (memory (;0;) 1)
  (export "g" (func 1))
  (export "m" (memory 0)))
