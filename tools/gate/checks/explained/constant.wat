(module (import "a" "g" (global $g i32)) (global i32 (i32.add (global.get $g) (i32.const 1))))
