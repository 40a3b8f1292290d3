;; replay_two_answers: this shows the module and is not its source; replay_two_answers.wasm has a custom section `r3.layout` besides: one import, one function of the original.
(module
  (type (;0;) (func (result i32)))
  (type (;1;) (func))
  (func (;0;) (type 0) (result i32)
    global.get 0
    global.get 0
    i32.const 1
    i32.add
    global.set 0
    if (result i32)  ;; label = @1
      i32.const 7
    else
      i32.const 5
    end)
  (func (;1;) (type 0) (result i32)
    call 0
    call 0
    i32.add)
  (func (;2;) (type 1)
    call 1
    drop)
  (global (;0;) (mut i32) (i32.const 0))
  (export "_start" (func 2)))
