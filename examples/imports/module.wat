;; Calls imports of several kinds, with integers of 32 bits.
(module
  (import "__wbindgen_placeholder__" "count" (func $count (param i32)))
  (import "__wbindgen_placeholder__" "get" (func $get (param i32) (result i32)))
  (import "__wbindgen_placeholder__" "limit" (func $limit (result i32)))
  (import "__wbindgen_placeholder__" "log" (func $log (param i32)))
  (import "__wbindgen_placeholder__" "max" (func $max (param i32 i32) (result i32)))
  (import "__wbindgen_placeholder__" "power" (func $power (param i32 i32) (result i32)))
  (import "__wbindgen_placeholder__" "set" (func $set (param i32 i32)))
  (import "__wbindgen_placeholder__" "tick" (func $tick (param i32)))
  (import "__wbindgen_placeholder__" "total" (func $total (result i32)))
  (import "__wbindgen_placeholder__" "twice" (func $twice (param i32) (result i32)))
  (import "__wbindgen_placeholder__" "half" (func $half (param i32) (result i32)))

  ;; Keeps the greater one of a number and the limit in slot 0, logs it, twice and half of that, and the total of what was
  ;; kept so far, and makes an object of its square.
  (func (export "keep") (param $number i32) (result i32)
    (call $set (i32.const 0) (call $max (local.get $number) (call $limit)))
    (call $log (call $get (i32.const 0)))
    (call $log (call $twice (call $get (i32.const 0))))
    (call $log (call $half (call $get (i32.const 0))))
    (call $count (call $get (i32.const 0)))
    (call $log (call $total))
    (call $tick (call $power (call $get (i32.const 0)) (i32.const 2)))
    (call $get (i32.const 0))))
