(module (func $calm (try (do nop) (catch_all nop))))
