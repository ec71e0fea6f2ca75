;; Tail calls.
(module
  (type $t (func (param i32) (result i32)))
  (table 1 funcref)
  (elem (i32.const 0) $even)
  (func $even (export "even") (type $t) (if (result i32) (local.get 0) (then (return_call $odd (i32.sub (local.get 0) (i32.const 1)))) (else (i32.const 1))))
  (func $odd (type $t) (return_call_indirect (type $t) (local.get 0) (i32.const 0))))
