(module (import "a" "b" (func)) (func $good) (func $bad (result i32) i64.const 1))
