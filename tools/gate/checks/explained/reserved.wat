(module (import "a" "f" (func)) (import "r3" "x" (func)))
