;; tree: this shows the module and is not its source, which is tree.c; in tree.wasm some numbers are longer than they need be.
(module
  (type (;0;) (func (param i64 i32)))
  (type (;1;) (func (param i32) (result i32)))
  (type (;2;) (func (result i64)))
  (type (;3;) (func (param i32 i32 i32)))
  (import "env" "next" (func (;0;) (type 1)))
  (import "env" "tell" (func (;1;) (type 0)))
  (func (;2;) (type 2) (result i64)
    (local i32 i32 i64 i32 i32)
    global.get 0
    i32.const 16
    i32.sub
    local.tee 0
    global.set 0
    block  ;; label = @1
      block  ;; label = @2
        local.get 0
        i32.const 8
        i32.add
        call 0
        i32.eqz
        br_if 0 (;@2;)
        loop  ;; label = @3
          block  ;; label = @4
            block  ;; label = @5
              i32.const 0
              i32.load offset=1032
              local.tee 1
              br_if 0 (;@5;)
              i32.const 1032
              local.set 1
              br 1 (;@4;)
            end
            local.get 0
            i64.load offset=8
            local.set 2
            loop  ;; label = @5
              local.get 1
              local.tee 3
              i32.const 8
              i32.const 12
              local.get 2
              local.get 3
              i64.load
              i64.lt_s
              local.tee 4
              select
              i32.add
              i32.load
              local.tee 1
              br_if 0 (;@5;)
            end
            local.get 3
            i32.const 8
            i32.add
            local.get 3
            i32.const 12
            i32.add
            local.get 4
            select
            local.set 1
          end
          local.get 0
          i64.load offset=8
          local.set 2
          block  ;; label = @4
            i32.const 0
            i32.load offset=1048
            i32.const 16
            i32.add
            i32.const 0
            i32.load offset=1052
            i32.le_u
            br_if 0 (;@4;)
            i32.const 1
            memory.grow
            local.tee 3
            i32.const -1
            i32.le_s
            br_if 3 (;@1;)
            i32.const 0
            local.get 3
            i32.const 16
            i32.shl
            local.tee 3
            i32.store offset=1048
            i32.const 0
            local.get 3
            i32.const 65536
            i32.add
            i32.store offset=1052
          end
          i32.const 0
          i32.load offset=1048
          local.tee 3
          i64.const 0
          i64.store offset=8
          local.get 3
          local.get 2
          i64.store
          i32.const 0
          local.get 3
          i32.const 16
          i32.add
          i32.store offset=1048
          local.get 1
          local.get 3
          i32.store
          local.get 0
          i32.const 8
          i32.add
          call 0
          br_if 0 (;@3;)
        end
      end
      i32.const 0
      i32.load offset=1032
      i32.const 1
      i32.const 0
      call 3
      i32.const 0
      i32.load offset=1032
      i32.const 1
      i32.const 1
      call 3
      i32.const 0
      i64.load offset=1040
      local.set 2
      local.get 0
      i32.const 16
      i32.add
      global.set 0
      local.get 2
      return
    end
    unreachable
    unreachable)
  (func (;3;) (type 3) (param i32 i32 i32)
    (local i32 i32)
    block  ;; label = @1
      local.get 0
      i32.eqz
      br_if 0 (;@1;)
      local.get 0
      i32.load offset=8
      local.get 1
      i32.const 1
      i32.add
      local.tee 3
      local.get 2
      call 3
      local.get 2
      i32.const 2
      i32.shl
      i32.const 1024
      i32.add
      i32.load
      local.set 4
      local.get 0
      i64.load
      local.get 1
      local.get 4
      call_indirect (type 0)
      local.get 0
      i32.load offset=12
      local.get 3
      local.get 2
      call 3
    end)
  (func (;4;) (type 0) (param i64 i32)
    local.get 0
    local.get 1
    call 1)
  (func (;5;) (type 0) (param i64 i32)
    i32.const 0
    i32.const 0
    i64.load offset=1040
    local.get 1
    i64.extend_i32_s
    local.get 0
    i64.mul
    i64.add
    i64.store offset=1040)
  (table (;0;) 3 3 funcref)
  (memory (;0;) 2)
  (global (;0;) (mut i32) (i32.const 66592))
  (export "memory" (memory 0))
  (export "run" (func 2))
  (elem (;0;) (i32.const 1) func 4 5)
  (data (;0;) (i32.const 1024) "\01\00\00\00\02\00\00\00"))
