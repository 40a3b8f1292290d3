(module
  (type (;0;) (func (param i32 i32) (result i32)))
  (type (;1;) (func (param i32)))
  (type (;2;) (func (result i32)))
  (type (;3;) (func (param i32 i32 i32)))
  (import "left" "memory" (memory (;0;) 1))
  (import "left" "__indirect_function_table" (table (;0;) 1 funcref))
  (import "env" "full" (func (;0;) (type 1)))
  (import "left" "spare" (func (;1;) (type 2)))
  (func (;2;) (type 2) (result i32)
    (local i32)
    block  ;; label = @1
      block  ;; label = @2
        i32.const 0
        i32.load offset=4096
        local.tee 0
        br_if 0 (;@2;)
        block  ;; label = @3
          i32.const 0
          i32.load offset=4100
          local.tee 0
          i32.const 3
          i32.gt_s
          br_if 0 (;@3;)
          i32.const 0
          local.get 0
          i32.const 1
          i32.add
          i32.store offset=4100
          local.get 0
          i32.const 3
          i32.shl
          i32.const 4112
          i32.add
          return
        end
        i32.const 4
        call 0
        call 1
        i32.eqz
        br_if 1 (;@1;)
        i32.const 0
        i32.load offset=4096
        local.set 0
      end
      i32.const 0
      local.get 0
      i32.load
      i32.store offset=4096
      local.get 0
      return
    end
    unreachable
    unreachable)
  (func (;3;) (type 1) (param i32)
    local.get 0
    i32.const 0
    i32.load offset=4096
    i32.store
    i32.const 0
    local.get 0
    i32.store offset=4096)
  (func (;4;) (type 3) (param i32 i32 i32)
    (local i32 i32 i32 i32 i32 i32)
    block  ;; label = @1
      local.get 1
      i32.const 2
      i32.lt_s
      br_if 0 (;@1;)
      local.get 0
      local.set 3
      i32.const 2
      local.set 4
      i32.const 1
      local.set 5
      loop  ;; label = @2
        local.get 0
        local.get 5
        i32.const 2
        i32.shl
        i32.add
        i32.load
        local.set 6
        local.get 3
        local.set 7
        local.get 4
        local.set 8
        block  ;; label = @3
          block  ;; label = @4
            loop  ;; label = @5
              local.get 6
              local.get 7
              i32.load
              local.get 2
              call_indirect (type 0)
              i32.eqz
              br_if 1 (;@4;)
              local.get 7
              i32.const 4
              i32.add
              local.get 7
              i32.load
              i32.store
              local.get 7
              i32.const -4
              i32.add
              local.set 7
              local.get 8
              i32.const -1
              i32.add
              local.tee 8
              i32.const 1
              i32.gt_s
              br_if 0 (;@5;)
            end
            i32.const 0
            local.set 7
            br 1 (;@3;)
          end
          local.get 8
          i32.const -1
          i32.add
          local.set 7
        end
        local.get 0
        local.get 7
        i32.const 2
        i32.shl
        i32.add
        local.get 6
        i32.store
        local.get 3
        i32.const 4
        i32.add
        local.set 3
        local.get 4
        i32.const 1
        i32.add
        local.set 4
        local.get 5
        i32.const 1
        i32.add
        local.tee 5
        local.get 1
        i32.ne
        br_if 0 (;@2;)
      end
    end)
  (global (;0;) (mut i32) (i32.const 5168))
  (export "take" (func 2))
  (export "give_back" (func 3))
  (export "sort" (func 4))
  (data (;0;) (i32.const 4096) "\00\00\00\00\00\00\00\00\00\00\00\00\00\00\00\00\00\00\00\00\00\00\00\00\00\00\00\00\00\00\00\00\00\00\00\00\00\00\00\00\00\00\00\00\00\00\00\00"))
