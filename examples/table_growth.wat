;; table_growth: the text of the module; assembled, it gives table_growth.wasm byte for byte.
(module
  (type (;0;) (func))
  (type (;1;) (func (result i32)))
  (import "h" "f" (func (;0;) (type 0)))
  (func (;1;) (type 1) (result i32)
    call 0
    i32.const 5
    call_indirect (type 1))
  (func (;2;) (type 1) (result i32)
    i32.const 7)
  (func (;3;) (type 0))
  (table (;0;) 2 funcref)
  (export "g" (func 1))
  (export "b" (func 3))
  (export "t" (table 0))
  (elem (;0;) (i32.const 0) func 2))
