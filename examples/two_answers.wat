;; two_answers: the text of the module; assembled, it gives two_answers.wasm byte for byte.
(module
  (type (;0;) (func (result i32)))
  (import "h" "f" (func (;0;) (type 0)))
  (func (;1;) (type 0) (result i32)
    call 0
    call 0
    i32.add)
  (export "g" (func 1)))
