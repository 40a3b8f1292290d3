;; collatz: the text of the module; assembled, it gives collatz.wasm byte for byte.
(module
  (type (;0;) (func (result i32)))
  (import "host" "next" (func (;0;) (type 0)))
  (func (;1;) (type 0) (result i32)
    (local i32 i32 i32 i32 i32 i64)
    i32.const 0
    local.set 0
    i32.const 0
    local.set 1
    loop  ;; label = @1
      block  ;; label = @2
        block  ;; label = @3
          call 0
          local.tee 2
          br_if 0 (;@3;)
          local.get 1
          i32.const 65535
          i32.and
          local.get 0
          i32.const 16
          i32.shl
          i32.or
          local.set 3
          br 1 (;@2;)
        end
        i32.const 0
        local.set 4
        block  ;; label = @3
          local.get 2
          i32.const 1
          i32.eq
          br_if 0 (;@3;)
          local.get 2
          i64.extend_i32_u
          local.set 5
          i32.const 0
          local.set 4
          loop  ;; label = @4
            local.get 4
            i32.const 1
            i32.add
            local.set 4
            local.get 5
            i64.const 1
            i64.shr_u
            local.get 5
            i64.const 3
            i64.mul
            i64.const 1
            i64.add
            local.get 5
            i64.const 1
            i64.and
            i64.eqz
            select
            local.tee 5
            i64.const 1
            i64.gt_u
            br_if 0 (;@4;)
          end
        end
        local.get 4
        local.get 0
        local.get 4
        local.get 0
        i32.gt_u
        select
        local.set 0
        local.get 4
        local.get 1
        i32.add
        local.set 1
      end
      local.get 2
      br_if 0 (;@1;)
    end
    local.get 3)
  (export "run" (func 1)))
