;; A counter of 32 bits.
(module
  (import "__wbindgen_placeholder__" "log" (func $log (param i32)))
  (import "__wbindgen_placeholder__" "log_unsigned" (func $log_unsigned (param i32)))
  (import "__wbindgen_placeholder__" "twice" (func $twice (param i32) (result i32)))
  (global $count (mut i32) (i32.const 0))

  ;; The counter begins at 7, and logs it.
  (func $begin
    (global.set $count (i32.const 7))
    (call $log (global.get $count)))
  (start $begin)

  ;; Adds a number to the counter, and gives the sum.
  (func (export "add") (param $number i32) (result i32)
    (global.set $count (i32.add (global.get $count) (local.get $number)))
    (global.get $count))

  ;; Gives the counter.
  (func (export "count") (result i32)
    (global.get $count))

  ;; Divides one number by another, both without a sign.
  (func (export "divide") (param $number i32) (param $divisor i32) (result i32)
    (i32.div_u (local.get $number) (local.get $divisor)))

  ;; Doubles the counter.
  (func (export "double-count")
    (global.set $count (call $twice (global.get $count))))

  ;; Logs the counter with a sign and without one.
  (func (export "report")
    (call $log (global.get $count))
    (call $log_unsigned (global.get $count))))
