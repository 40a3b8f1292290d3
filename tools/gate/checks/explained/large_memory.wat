(module (import "host" "memory" (memory 4097)))
