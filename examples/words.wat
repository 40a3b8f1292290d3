;; words: this shows the module and is not its source, which is words.c; in words.wasm some numbers are longer than they need be.
(module
  (type (;0;) (func (param i32 i32) (result i32)))
  (type (;1;) (func (param i32 i32)))
  (type (;2;) (func (result i32)))
  (import "env" "read" (func (;0;) (type 0)))
  (import "env" "write" (func (;1;) (type 1)))
  (func (;2;) (type 2) (result i32)
    (local i32 i32 i32 i32 i32 i32 i32 i32 i32 i32 i32)
    global.get 0
    i32.const 16
    i32.sub
    local.tee 0
    global.set 0
    i32.const -2128831035
    local.set 1
    i32.const 0
    local.set 2
    loop  ;; label = @1
      block  ;; label = @2
        i32.const 1024
        i32.const 64
        call 0
        local.tee 3
        i32.const 1
        i32.lt_s
        br_if 0 (;@2;)
        i32.const 0
        local.set 4
        i32.const 0
        i32.load offset=1108
        local.set 5
        i32.const 0
        i32.load offset=1104
        local.set 6
        loop  ;; label = @3
          block  ;; label = @4
            block  ;; label = @5
              local.get 4
              i32.const 1024
              i32.add
              i32.load8_u
              local.tee 7
              i32.const -97
              i32.add
              i32.const 255
              i32.and
              i32.const 25
              i32.gt_u
              br_if 0 (;@5;)
              block  ;; label = @6
                local.get 2
                i32.const 15
                i32.gt_s
                br_if 0 (;@6;)
                local.get 0
                local.get 2
                i32.add
                local.get 7
                i32.store8
                local.get 2
                i32.const 1
                i32.add
                local.set 2
              end
              local.get 1
              local.get 7
              i32.xor
              i32.const 16777619
              i32.mul
              local.set 1
              br 1 (;@4;)
            end
            local.get 2
            i32.const 1
            i32.lt_s
            br_if 0 (;@4;)
            local.get 1
            i32.const 31
            i32.and
            local.tee 8
            i32.const 3
            i32.shl
            local.tee 9
            i32.const 1120
            i32.add
            local.set 7
            block  ;; label = @5
              block  ;; label = @6
                local.get 9
                i32.const 1124
                i32.add
                local.tee 10
                i32.load
                local.tee 9
                i32.eqz
                br_if 0 (;@6;)
                block  ;; label = @7
                  local.get 7
                  i32.load
                  local.get 1
                  i32.eq
                  br_if 0 (;@7;)
                  loop  ;; label = @8
                    local.get 8
                    i32.const 1
                    i32.add
                    i32.const 31
                    i32.and
                    local.tee 8
                    i32.const 3
                    i32.shl
                    local.tee 9
                    i32.const 1120
                    i32.add
                    local.set 7
                    local.get 9
                    i32.const 1124
                    i32.add
                    local.tee 10
                    i32.load
                    local.tee 9
                    i32.eqz
                    br_if 2 (;@6;)
                    local.get 7
                    i32.load
                    local.get 1
                    i32.ne
                    br_if 0 (;@8;)
                  end
                end
                local.get 9
                br_if 1 (;@5;)
              end
              local.get 7
              local.get 1
              i32.store
              i32.const 0
              local.get 5
              i32.const 1
              i32.add
              local.tee 5
              i32.store offset=1108
            end
            local.get 10
            local.get 9
            i32.const 1
            i32.add
            i32.store
            i32.const -2128831035
            local.set 1
            block  ;; label = @5
              local.get 6
              local.get 2
              i32.ge_s
              br_if 0 (;@5;)
              i32.const 0
              local.get 2
              i32.store offset=1104
              i32.const 0
              local.set 7
              loop  ;; label = @6
                local.get 7
                i32.const 1088
                i32.add
                local.get 0
                local.get 7
                i32.add
                i32.load8_u
                i32.store8
                local.get 2
                local.get 7
                i32.const 1
                i32.add
                local.tee 7
                i32.ne
                br_if 0 (;@6;)
              end
              local.get 2
              local.set 6
            end
            i32.const 0
            local.set 2
          end
          local.get 4
          i32.const 1
          i32.add
          local.tee 4
          local.get 3
          i32.ne
          br_if 0 (;@3;)
        end
      end
      local.get 3
      i32.const 0
      i32.gt_s
      br_if 0 (;@1;)
    end
    block  ;; label = @1
      local.get 2
      i32.const 1
      i32.lt_s
      br_if 0 (;@1;)
      local.get 1
      i32.const 31
      i32.and
      local.tee 8
      i32.const 3
      i32.shl
      local.tee 9
      i32.const 1120
      i32.add
      local.set 7
      block  ;; label = @2
        block  ;; label = @3
          local.get 9
          i32.const 1124
          i32.add
          local.tee 4
          i32.load
          local.tee 9
          i32.eqz
          br_if 0 (;@3;)
          block  ;; label = @4
            local.get 7
            i32.load
            local.get 1
            i32.eq
            br_if 0 (;@4;)
            loop  ;; label = @5
              local.get 8
              i32.const 1
              i32.add
              i32.const 31
              i32.and
              local.tee 8
              i32.const 3
              i32.shl
              local.tee 9
              i32.const 1120
              i32.add
              local.set 7
              local.get 9
              i32.const 1124
              i32.add
              local.tee 4
              i32.load
              local.tee 9
              i32.eqz
              br_if 2 (;@3;)
              local.get 7
              i32.load
              local.get 1
              i32.ne
              br_if 0 (;@5;)
            end
          end
          local.get 9
          br_if 1 (;@2;)
        end
        local.get 7
        local.get 1
        i32.store
        i32.const 0
        i32.const 0
        i32.load offset=1108
        i32.const 1
        i32.add
        i32.store offset=1108
      end
      local.get 4
      local.get 9
      i32.const 1
      i32.add
      i32.store
      i32.const 0
      local.set 7
      i32.const 0
      i32.load offset=1104
      local.get 2
      i32.ge_s
      br_if 0 (;@1;)
      i32.const 0
      local.get 2
      i32.store offset=1104
      loop  ;; label = @2
        local.get 7
        i32.const 1088
        i32.add
        local.get 0
        local.get 7
        i32.add
        i32.load8_u
        i32.store8
        local.get 2
        local.get 7
        i32.const 1
        i32.add
        local.tee 7
        i32.ne
        br_if 0 (;@2;)
      end
    end
    i32.const 1088
    i32.const 0
    i32.load offset=1104
    call 1
    i32.const 0
    i32.load offset=1108
    local.set 7
    local.get 0
    i32.const 16
    i32.add
    global.set 0
    local.get 7)
  (table (;0;) 1 1 funcref)
  (memory (;0;) 2)
  (global (;0;) (mut i32) (i32.const 66912))
  (export "memory" (memory 0))
  (export "run" (func 2)))
