;; spelling: this shows the module and is not its source, which is spelling.c; in spelling.wasm some numbers are longer than they need be.
(module
  (type (;0;) (func (param i32 i32) (result i32)))
  (type (;1;) (func (param i32 i32 i32)))
  (type (;2;) (func (result i32)))
  (type (;3;) (func (param i32)))
  (type (;4;) (func))
  (import "env" "read" (func (;0;) (type 0)))
  (import "env" "ask" (func (;1;) (type 0)))
  (import "env" "report" (func (;2;) (type 1)))
  (func (;3;) (type 2) (result i32)
    (local i32 i32 i32 i32 i32 i32)
    global.get 0
    i32.const 48
    i32.sub
    local.tee 0
    global.set 0
    local.get 0
    i32.const 8
    i32.add
    i64.const 0
    i64.store
    local.get 0
    i64.const 0
    i64.store
    block  ;; label = @1
      local.get 0
      i32.const 16
      i32.add
      i32.const 32
      call 0
      local.tee 1
      i32.const 1
      i32.lt_s
      br_if 0 (;@1;)
      i32.const 0
      local.set 2
      loop  ;; label = @2
        local.get 0
        i32.const 16
        i32.add
        local.set 3
        loop  ;; label = @3
          block  ;; label = @4
            block  ;; label = @5
              block  ;; label = @6
                local.get 3
                i32.load8_u
                local.tee 4
                i32.const 32
                i32.ne
                br_if 0 (;@6;)
                local.get 0
                call 4
                i32.const 0
                local.set 2
                br 1 (;@5;)
              end
              local.get 2
              i32.const 255
              i32.and
              local.tee 5
              i32.const 14
              i32.gt_u
              br_if 1 (;@4;)
              local.get 0
              local.get 5
              i32.add
              i32.const 1
              i32.add
              local.get 4
              i32.store8
              local.get 2
              i32.const 1
              i32.add
              local.set 2
            end
            local.get 0
            local.get 2
            i32.store8
          end
          local.get 3
          i32.const 1
          i32.add
          local.set 3
          local.get 1
          i32.const -1
          i32.add
          local.tee 1
          br_if 0 (;@3;)
        end
        local.get 0
        i32.const 16
        i32.add
        i32.const 32
        call 0
        local.tee 1
        i32.const 1
        i32.ge_s
        br_if 0 (;@2;)
      end
    end
    local.get 0
    call 4
    i32.const 0
    i32.load offset=1024
    local.set 3
    local.get 0
    i32.const 48
    i32.add
    global.set 0
    local.get 3)
  (func (;4;) (type 3) (param i32)
    (local i32 i32 i32 i32 i32 i32 i32 i32 i32 i32 i32 i32 i32)
    block  ;; label = @1
      local.get 0
      i32.load8_u
      local.tee 1
      i32.eqz
      br_if 0 (;@1;)
      i32.const 0
      i32.load offset=1024
      local.tee 2
      i32.const 64
      i32.eq
      br_if 0 (;@1;)
      i32.const 0
      local.get 2
      i32.const 1
      i32.add
      i32.store offset=1024
      block  ;; label = @2
        local.get 2
        i32.const 1
        i32.lt_s
        br_if 0 (;@2;)
        local.get 0
        i32.const 1
        i32.add
        local.set 3
        local.get 2
        i32.const 4
        i32.shl
        i32.const 1025
        i32.add
        local.set 4
        loop  ;; label = @3
          local.get 2
          i32.const -1
          i32.add
          local.tee 5
          i32.const 4
          i32.shl
          i32.const 1040
          i32.add
          local.tee 6
          i32.load8_u
          local.set 7
          block  ;; label = @4
            block  ;; label = @5
              local.get 1
              i32.const 255
              i32.and
              local.tee 8
              i32.eqz
              br_if 0 (;@5;)
              local.get 7
              local.set 9
              local.get 3
              local.set 10
              local.get 4
              local.set 11
              loop  ;; label = @6
                local.get 9
                i32.eqz
                br_if 1 (;@5;)
                block  ;; label = @7
                  local.get 10
                  i32.load8_u
                  local.tee 12
                  local.get 11
                  i32.load8_u
                  local.tee 13
                  i32.ne
                  br_if 0 (;@7;)
                  local.get 9
                  i32.const -1
                  i32.add
                  local.set 9
                  local.get 10
                  i32.const 1
                  i32.add
                  local.set 10
                  local.get 11
                  i32.const 1
                  i32.add
                  local.set 11
                  local.get 8
                  i32.const -1
                  i32.add
                  local.tee 8
                  i32.eqz
                  br_if 2 (;@5;)
                  br 1 (;@6;)
                end
              end
              local.get 12
              i32.const 24
              i32.shl
              i32.const 24
              i32.shr_s
              local.get 13
              i32.const 24
              i32.shl
              i32.const 24
              i32.shr_s
              i32.lt_s
              br_if 1 (;@4;)
              br 3 (;@2;)
            end
            local.get 1
            i32.const 255
            i32.and
            local.get 7
            i32.ge_u
            br_if 2 (;@2;)
          end
          local.get 2
          i32.const 4
          i32.shl
          local.tee 9
          i32.const 1048
          i32.add
          local.get 6
          i32.const 8
          i32.add
          i64.load
          i64.store
          local.get 9
          i32.const 1040
          i32.add
          local.get 6
          i64.load
          i64.store
          block  ;; label = @4
            local.get 2
            i32.const 2
            i32.ge_s
            br_if 0 (;@4;)
            i32.const 0
            local.set 2
            br 2 (;@2;)
          end
          local.get 4
          i32.const -16
          i32.add
          local.set 4
          local.get 0
          i32.load8_u
          local.set 1
          local.get 5
          local.set 2
          br 0 (;@3;)
        end
      end
      local.get 2
      i32.const 4
      i32.shl
      local.tee 9
      i32.const 1048
      i32.add
      local.get 0
      i32.const 8
      i32.add
      i64.load align=1
      i64.store align=1
      local.get 9
      i32.const 1040
      i32.add
      local.get 0
      i64.load align=1
      i64.store align=1
    end)
  (func (;5;) (type 4)
    (local i32 i32 i32 i32 i32 i32 i32 i32 i32 i32 i32 i32 i32 i32 i32 i32 i32 i32 i32)
    global.get 0
    i32.const 32
    i32.sub
    local.tee 0
    global.set 0
    i32.const 0
    local.set 1
    local.get 0
    local.get 0
    i32.const 1
    i32.or
    i32.const 15
    call 1
    local.tee 2
    i32.const 15
    local.get 2
    i32.const 15
    i32.lt_s
    select
    local.tee 2
    i32.const 0
    local.get 2
    i32.const 0
    i32.gt_s
    select
    local.tee 3
    i32.store8
    block  ;; label = @1
      i32.const 0
      i32.load offset=1024
      local.tee 4
      i32.const 1
      i32.lt_s
      br_if 0 (;@1;)
      local.get 0
      i32.const 16
      i32.add
      i32.const 1
      i32.or
      local.set 5
      local.get 0
      i32.load8_u offset=1
      i32.const 255
      i32.and
      local.set 6
      i32.const 1041
      local.set 7
      i32.const -1
      local.set 8
      i32.const 16
      local.set 9
      loop  ;; label = @2
        block  ;; label = @3
          local.get 1
          i32.const 4
          i32.shl
          local.tee 2
          i32.const 1041
          i32.add
          i32.load8_u
          local.get 6
          i32.ne
          br_if 0 (;@3;)
          local.get 2
          i32.const 1040
          i32.add
          i32.load8_u
          local.tee 10
          i32.const 1
          i32.add
          local.set 11
          i32.const 0
          local.set 2
          loop  ;; label = @4
            local.get 0
            i32.const 16
            i32.add
            local.get 2
            i32.add
            local.get 2
            i32.store8
            local.get 11
            local.get 2
            i32.const 1
            i32.add
            local.tee 2
            i32.ne
            br_if 0 (;@4;)
          end
          block  ;; label = @4
            local.get 3
            i32.const 255
            i32.and
            i32.eqz
            br_if 0 (;@4;)
            i32.const 0
            local.set 2
            local.get 0
            i32.load8_u offset=16
            local.set 12
            loop  ;; label = @5
              local.get 12
              local.set 11
              local.get 2
              i32.const 1
              i32.add
              local.set 12
              block  ;; label = @6
                local.get 10
                i32.eqz
                br_if 0 (;@6;)
                local.get 11
                i32.const 255
                i32.and
                local.set 13
                local.get 0
                local.get 2
                i32.add
                i32.const 1
                i32.add
                i32.load8_u
                local.set 14
                local.get 5
                local.set 2
                local.get 10
                local.set 15
                local.get 7
                local.set 11
                local.get 12
                local.set 16
                loop  ;; label = @7
                  local.get 2
                  local.get 16
                  i32.const 255
                  i32.and
                  i32.const 1
                  i32.add
                  local.tee 16
                  local.get 2
                  i32.load8_u
                  local.tee 17
                  i32.const 1
                  i32.add
                  local.tee 18
                  local.get 13
                  local.get 14
                  i32.const 255
                  i32.and
                  local.get 11
                  i32.load8_u
                  i32.ne
                  i32.add
                  local.tee 13
                  local.get 18
                  local.get 13
                  i32.lt_u
                  select
                  local.tee 13
                  local.get 16
                  local.get 13
                  i32.lt_u
                  select
                  local.tee 16
                  i32.store8
                  local.get 2
                  i32.const 1
                  i32.add
                  local.set 2
                  local.get 11
                  i32.const 1
                  i32.add
                  local.set 11
                  local.get 17
                  local.set 13
                  local.get 15
                  i32.const -1
                  i32.add
                  local.tee 15
                  br_if 0 (;@7;)
                end
              end
              local.get 12
              local.set 2
              local.get 12
              local.get 3
              i32.ne
              br_if 0 (;@5;)
            end
            local.get 0
            local.get 3
            i32.store8 offset=16
          end
          local.get 1
          local.get 8
          local.get 9
          local.get 0
          i32.const 16
          i32.add
          local.get 10
          i32.add
          i32.load8_u
          local.tee 2
          i32.gt_s
          local.tee 11
          select
          local.set 8
          local.get 2
          local.get 9
          local.get 11
          select
          local.set 9
        end
        local.get 7
        i32.const 16
        i32.add
        local.set 7
        local.get 1
        i32.const 1
        i32.add
        local.tee 1
        local.get 4
        i32.ne
        br_if 0 (;@2;)
      end
      local.get 8
      i32.const -1
      i32.le_s
      br_if 0 (;@1;)
      local.get 8
      i32.const 4
      i32.shl
      local.tee 2
      i32.const 1041
      i32.add
      local.get 2
      i32.const 1040
      i32.add
      i32.load8_u
      local.get 9
      call 2
    end
    local.get 0
    i32.const 32
    i32.add
    global.set 0)
  (table (;0;) 1 1 funcref)
  (memory (;0;) 1)
  (global (;0;) (mut i32) (i32.const 3088))
  (export "memory" (memory 0))
  (export "load" (func 3))
  (export "correct" (func 5)))
