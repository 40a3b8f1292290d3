;; shelf.left: this shows the module and is not its source, which is shelf.left.c; in shelf.left.wasm some numbers are longer than they need be.
(module
  (type (;0;) (func (param i32 i32 i32)))
  (type (;1;) (func (param i32)))
  (type (;2;) (func (param i32 i32) (result i32)))
  (type (;3;) (func (result i32)))
  (import "right" "sort" (func (;0;) (type 0)))
  (import "right" "give_back" (func (;1;) (type 1)))
  (import "env" "read" (func (;2;) (type 2)))
  (import "right" "take" (func (;3;) (type 3)))
  (import "env" "write" (func (;4;) (type 1)))
  (func (;5;) (type 3) (result i32)
    (local i32 i32 i32 i32)
    i32.const 0
    local.set 0
    block  ;; label = @1
      i32.const 0
      i32.load offset=1024
      local.tee 1
      i32.eqz
      br_if 0 (;@1;)
      i32.const 1040
      local.set 2
      i32.const 1040
      local.get 1
      i32.const 1
      call 0
      i32.const 0
      i32.load offset=1040
      call 1
      i32.const 0
      i32.const 0
      i32.load offset=1024
      local.tee 3
      i32.const -1
      i32.add
      local.tee 1
      i32.store offset=1024
      i32.const 1
      local.set 0
      local.get 3
      i32.const 2
      i32.lt_s
      br_if 0 (;@1;)
      loop  ;; label = @2
        local.get 2
        local.get 2
        i32.const 4
        i32.add
        local.tee 3
        i32.load
        i32.store
        local.get 3
        local.set 2
        local.get 1
        i32.const -1
        i32.add
        local.tee 1
        br_if 0 (;@2;)
      end
    end
    local.get 0)
  (func (;6;) (type 2) (param i32 i32) (result i32)
    local.get 0
    i32.load offset=4
    local.get 1
    i32.load offset=4
    i32.lt_s)
  (func (;7;) (type 3) (result i32)
    (local i32 i32 i32 i32 i32)
    global.get 0
    i32.const 16
    i32.sub
    local.tee 0
    global.set 0
    block  ;; label = @1
      local.get 0
      i32.const 4
      call 2
      local.tee 1
      i32.const 1
      i32.lt_s
      br_if 0 (;@1;)
      loop  ;; label = @2
        local.get 0
        local.set 2
        loop  ;; label = @3
          call 3
          local.tee 3
          local.get 2
          i32.load
          i32.store
          local.get 3
          i32.const 0
          i32.load offset=1072
          local.tee 4
          i32.store offset=4
          i32.const 0
          local.get 4
          i32.const 1
          i32.add
          i32.store offset=1072
          i32.const 0
          i32.const 0
          i32.load offset=1024
          local.tee 4
          i32.const 1
          i32.add
          i32.store offset=1024
          local.get 4
          i32.const 2
          i32.shl
          i32.const 1040
          i32.add
          local.get 3
          i32.store
          local.get 2
          i32.const 4
          i32.add
          local.set 2
          local.get 1
          i32.const -1
          i32.add
          local.tee 1
          br_if 0 (;@3;)
        end
        local.get 0
        i32.const 4
        call 2
        local.tee 1
        i32.const 1
        i32.ge_s
        br_if 0 (;@2;)
      end
    end
    i32.const 2
    call 9
    i32.const 1
    call 9
    i32.const 0
    i32.load offset=1024
    local.set 2
    local.get 0
    i32.const 16
    i32.add
    global.set 0
    local.get 2)
  (func (;8;) (type 2) (param i32 i32) (result i32)
    local.get 0
    i32.load
    local.get 1
    i32.load
    i32.lt_s)
  (func (;9;) (type 1) (param i32)
    (local i32)
    i32.const 1040
    local.set 1
    i32.const 1040
    i32.const 0
    i32.load offset=1024
    local.get 0
    call 0
    block  ;; label = @1
      i32.const 0
      i32.load offset=1024
      i32.const 1
      i32.lt_s
      br_if 0 (;@1;)
      i32.const 0
      local.set 0
      loop  ;; label = @2
        local.get 1
        i32.load
        i32.load
        call 4
        local.get 1
        i32.const 4
        i32.add
        local.set 1
        local.get 0
        i32.const 1
        i32.add
        local.tee 0
        i32.const 0
        i32.load offset=1024
        i32.lt_s
        br_if 0 (;@2;)
      end
    end)
  (table (;0;) 3 3 funcref)
  (memory (;0;) 1)
  (global (;0;) (mut i32) (i32.const 2112))
  (export "memory" (memory 0))
  (export "spare" (func 5))
  (export "run" (func 7))
  (export "__indirect_function_table" (table 0))
  (elem (;0;) (i32.const 1) func 6 8))
