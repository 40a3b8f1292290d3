(module (table 1 funcref) (table 1 funcref) (type $t (func)) (func $pick i32.const 0 call_indirect 1 (type $t)))
