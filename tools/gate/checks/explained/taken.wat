(module (import "foreign" "f" (func)) (import "left" "m" (memory 1)))
