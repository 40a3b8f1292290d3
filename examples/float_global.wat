;; float_global: the text of the module; assembled, it gives float_global.wasm byte for byte.
(module
  (type (;0;) (func))
  (type (;1;) (func (result f32)))
  (import "h" "f" (func (;0;) (type 0)))
  (func (;1;) (type 1) (result f32)
    call 0
    global.get 0)
  (global (;0;) (mut f32) (f32.const 0x0p+0 (;=0;)))
  (export "g" (func 1))
  (export "x" (global 0)))
