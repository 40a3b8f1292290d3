;; empty: the text of the module; assembled, it gives empty.wasm byte for byte.
(module)
