;; What today's compilers may use and r3 does not take: vectors, several results, tail calls, references, a second table.
(module
  (import "host" "print" (func $print (param externref i32)))
  (type $unary (func (param i32) (result i32)))
  (memory (export "memory") 1)
  (table $objects 4 externref)
  (table $functions 4 funcref)
  (elem (table $functions) (i32.const 0) func $double $square)
  (data (i32.const 64) "\01\00\00\00\02\00\00\00\03\00\00\00\04\00\00\00\05\00\00\00\06\00\00\00\07\00\00\00\08\00\00\00")
  (func $double (param i32) (result i32) (i32.shl (local.get 0) (i32.const 1)))
  (func $square (param i32) (result i32) (i32.mul (local.get 0) (local.get 0)))
  ;; The sum of the numbers at an address, four at a time.
  (func $sum (export "sum") (param $at i32) (param $count i32) (result i32)
    (local $sums v128)
    (loop $next
      (local.set $sums (i32x4.add (local.get $sums) (v128.load (local.get $at))))
      (local.set $at (i32.add (local.get $at) (i32.const 16)))
      (br_if $next (local.tee $count (i32.sub (local.get $count) (i32.const 4)))))
    (i32.add
      (i32.add (i32x4.extract_lane 0 (local.get $sums)) (i32x4.extract_lane 1 (local.get $sums)))
      (i32.add (i32x4.extract_lane 2 (local.get $sums)) (i32x4.extract_lane 3 (local.get $sums)))))
  ;; Two results.
  (func $divided (param i32 i32) (result i32 i32)
    (i32.div_u (local.get 0) (local.get 1)) (i32.rem_u (local.get 0) (local.get 1)))
  (func (export "digits") (param i32) (result i32)
    (local $sum i32)
    (loop $next
      (call $divided (local.get 0) (i32.const 10))
      (local.set $sum (i32.add (local.get $sum)))
      (local.set 0)
      (br_if $next (local.get 0)))
    (local.get $sum))
  ;; A loop by tail calls.
  (func $down (export "down") (param $count i32) (param $total i32) (result i32)
    (if (i32.eqz (local.get $count)) (then (return (local.get $total))))
    (return_call $down (i32.sub (local.get $count) (i32.const 1)) (call $mixed (local.get $total) (local.get $count))))
  (func $mixed (param i32 i32) (result i32)
    (i32.xor (i32.mul (local.get 0) (i32.const 31)) (local.get 1)))
  ;; References in a table, and functions by the other one.
  (func (export "put") (param i32 externref)
    (table.set $objects (local.get 0) (local.get 1))
    (call $print (table.get $objects (local.get 0)) (call $applied (i32.const 5))))
  (func (export "swap")
    (table.set $functions (i32.const 0) (ref.func $square))
    (table.set $functions (i32.const 1) (ref.func $double)))
  (func $applied (export "applied") (param i32) (result i32)
    (i32.sub
      (call_indirect $functions (type $unary) (local.get 0) (i32.const 0))
      (call_indirect $functions (type $unary) (local.get 0) (i32.const 1)))))
