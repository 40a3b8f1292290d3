;; fill_past: the text of the module; assembled, it gives fill_past.wasm byte for byte.
(module
  (type (;0;) (func))
  (import "h" "f" (func (;0;) (type 0)))
  (func (;1;) (type 0)
    call 0
    i32.const 65535
    i32.const 7
    i32.const 2
    memory.fill)
  (memory (;0;) 1)
  (export "g" (func 1))
  (export "m" (memory 0)))
