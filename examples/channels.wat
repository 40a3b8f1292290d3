;; channels: this shows the module and is not its source, which is channels.c; in channels.wasm some numbers are longer than they need be.
(module
  (type (;0;) (func (param i32 i32) (result i32)))
  (type (;1;) (func (param i32 i32)))
  (type (;2;) (func (param i32)))
  (type (;3;) (func (result i32)))
  (import "env" "read" (func (;0;) (type 0)))
  (import "env" "write" (func (;1;) (type 1)))
  (func (;2;) (type 2) (param i32)
    (local i32 i32 i32)
    i32.const 0
    local.set 1
    block  ;; label = @1
      block  ;; label = @2
        i32.const 0
        i32.load offset=65536
        local.tee 2
        i32.const 1
        i32.lt_s
        br_if 0 (;@2;)
        i32.const 0
        local.set 1
        i32.const 65555
        local.set 3
        local.get 0
        i32.const 255
        i32.and
        local.set 0
        loop  ;; label = @3
          local.get 3
          i32.load8_u
          local.get 0
          i32.eq
          br_if 1 (;@2;)
          local.get 3
          i32.const 4
          i32.add
          local.set 3
          local.get 2
          local.get 1
          i32.const 1
          i32.add
          local.tee 1
          i32.ne
          br_if 0 (;@3;)
          br 2 (;@1;)
        end
      end
      local.get 1
      local.get 2
      i32.ge_s
      br_if 0 (;@1;)
      i32.const 0
      local.get 2
      i32.const -1
      i32.add
      local.tee 3
      i32.store offset=65536
      block  ;; label = @2
        local.get 3
        local.get 1
        i32.sub
        i32.const 2
        i32.shl
        local.tee 2
        i32.eqz
        br_if 0 (;@2;)
        local.get 1
        i32.const 2
        i32.shl
        local.tee 1
        i32.const 65552
        i32.add
        local.get 1
        i32.const 65556
        i32.add
        local.get 2
        memory.copy
      end
      local.get 3
      i32.const 2
      i32.shl
      i32.const 65552
      i32.add
      i32.const 0
      i32.store
    end)
  (func (;3;) (type 3) (result i32)
    (local i32 i32 i32 i32 i32 i32 i32 i32)
    block  ;; label = @1
      i32.const 65540
      i32.const 8
      call 0
      local.tee 0
      i32.const 1
      i32.lt_s
      br_if 0 (;@1;)
      i32.const 0
      local.set 1
      loop  ;; label = @2
        block  ;; label = @3
          block  ;; label = @4
            local.get 0
            local.get 1
            i32.add
            local.tee 1
            i32.const 3
            i32.ge_s
            br_if 0 (;@4;)
            i32.const 0
            local.set 2
            br 1 (;@3;)
          end
          i32.const 0
          local.set 3
          i32.const 0
          i32.load offset=65536
          local.set 4
          loop  ;; label = @4
            local.get 3
            i32.load8_u offset=65541
            local.set 5
            local.get 3
            i32.load8_u offset=65540
            local.set 6
            i32.const 0
            local.set 2
            block  ;; label = @5
              block  ;; label = @6
                block  ;; label = @7
                  block  ;; label = @8
                    block  ;; label = @9
                      block  ;; label = @10
                        local.get 4
                        i32.const 1
                        i32.lt_s
                        br_if 0 (;@10;)
                        i32.const 0
                        local.set 2
                        i32.const 65555
                        local.set 0
                        local.get 6
                        i32.const 255
                        i32.and
                        local.set 7
                        loop  ;; label = @11
                          local.get 0
                          i32.load8_u
                          local.get 7
                          i32.eq
                          br_if 1 (;@10;)
                          local.get 0
                          i32.const 4
                          i32.add
                          local.set 0
                          local.get 4
                          local.get 2
                          i32.const 1
                          i32.add
                          local.tee 2
                          i32.ne
                          br_if 0 (;@11;)
                          br 2 (;@9;)
                        end
                      end
                      local.get 2
                      local.get 4
                      i32.ge_s
                      br_if 0 (;@9;)
                      local.get 2
                      i32.const 2
                      i32.shl
                      local.tee 7
                      i32.load offset=65552
                      local.set 0
                      block  ;; label = @10
                        local.get 4
                        i32.const -1
                        i32.add
                        local.tee 4
                        local.get 2
                        i32.sub
                        i32.const 2
                        i32.shl
                        local.tee 2
                        i32.eqz
                        br_if 0 (;@10;)
                        local.get 7
                        i32.const 65552
                        i32.add
                        local.get 7
                        i32.const 65556
                        i32.add
                        local.get 2
                        memory.copy
                      end
                      local.get 4
                      i32.const 2
                      i32.shl
                      i32.const 65552
                      i32.add
                      i32.const 0
                      i32.store
                      local.get 0
                      i32.const 3
                      i32.mul
                      local.set 2
                      local.get 0
                      i32.const 24
                      i32.shr_u
                      local.set 6
                      local.get 0
                      i32.const 16
                      i32.shr_u
                      local.set 0
                      br 1 (;@8;)
                    end
                    i32.const 0
                    local.set 0
                    local.get 4
                    i32.const 4
                    i32.eq
                    br_if 1 (;@7;)
                    i32.const 0
                    local.set 2
                  end
                  local.get 2
                  local.get 0
                  local.get 5
                  i32.add
                  local.tee 5
                  i32.extend8_s
                  i32.add
                  local.set 7
                  local.get 4
                  i32.const 1
                  i32.ge_s
                  br_if 1 (;@6;)
                  i32.const 0
                  local.set 2
                  br 2 (;@5;)
                end
                i32.const 0
                i32.const 0
                i64.load offset=65556 align=4
                i64.store offset=65552
                i32.const 0
                i32.const 0
                i32.load offset=65564
                i32.store offset=65560
                i32.const 0
                i32.const 0
                i32.store offset=65564
                local.get 5
                i32.extend8_s
                local.set 7
                i32.const 3
                local.set 4
              end
              i32.const 0
              local.set 2
              i32.const 65552
              local.set 0
              loop  ;; label = @6
                local.get 0
                i32.load16_s
                local.get 7
                i32.extend16_s
                i32.gt_s
                br_if 1 (;@5;)
                local.get 0
                i32.const 4
                i32.add
                local.set 0
                local.get 4
                local.get 2
                i32.const 1
                i32.add
                local.tee 2
                i32.ne
                br_if 0 (;@6;)
              end
              local.get 4
              local.set 2
            end
            local.get 2
            i32.const 2
            i32.shl
            local.set 0
            block  ;; label = @5
              local.get 4
              local.get 2
              i32.sub
              i32.const 2
              i32.shl
              local.tee 2
              i32.eqz
              br_if 0 (;@5;)
              local.get 0
              i32.const 65556
              i32.add
              local.get 0
              i32.const 65552
              i32.add
              local.get 2
              memory.copy
            end
            local.get 0
            local.get 6
            i32.const 24
            i32.shl
            local.get 5
            i32.const 255
            i32.and
            i32.const 16
            i32.shl
            i32.or
            local.get 7
            i32.const 65535
            i32.and
            i32.or
            i32.store offset=65552
            local.get 4
            i32.const 1
            i32.add
            local.set 4
            local.get 1
            local.get 3
            i32.sub
            local.set 0
            local.get 3
            i32.const 3
            i32.add
            local.tee 2
            local.set 3
            local.get 0
            i32.const 5
            i32.gt_s
            br_if 0 (;@4;)
          end
          i32.const 0
          local.get 4
          i32.store offset=65536
          local.get 0
          i32.const -3
          i32.add
          local.set 1
        end
        block  ;; label = @3
          local.get 1
          i32.eqz
          br_if 0 (;@3;)
          i32.const 65540
          local.get 2
          i32.const 65540
          i32.add
          local.get 1
          memory.copy
        end
        local.get 1
        i32.const 65540
        i32.add
        local.set 0
        block  ;; label = @3
          i32.const 8
          local.get 1
          i32.sub
          local.tee 4
          i32.eqz
          br_if 0 (;@3;)
          local.get 0
          i32.const 0
          local.get 4
          memory.fill
        end
        local.get 0
        local.get 4
        call 0
        local.tee 0
        i32.const 0
        i32.gt_s
        br_if 0 (;@2;)
      end
    end
    i32.const 65552
    i32.const 0
    i32.load offset=65536
    i32.const 2
    i32.shl
    call 1
    i32.const 0
    i32.load offset=65536)
  (table (;0;) 1 1 funcref)
  (memory (;0;) 2)
  (global (;0;) (mut i32) (i32.const 65536))
  (export "memory" (memory 0))
  (export "drop" (func 2))
  (export "run" (func 3)))
