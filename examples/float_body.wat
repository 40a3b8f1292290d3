;; float_body: the text of the module; assembled, it gives float_body.wasm byte for byte.
(module
  (type (;0;) (func))
  (func (;0;) (type 0))
  (func (;1;) (type 0))
  (func (;2;) (type 0)
    nop
    f64.const 0x0p+0 (;=0;)
    f64.const 0x0p+0 (;=0;)
    f64.add
    drop))
