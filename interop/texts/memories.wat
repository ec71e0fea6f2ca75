;; Several memories, and one with addresses of 64 bits.
(module
  (memory $a (export "a") 1)
  (memory $b (export "b") i64 1 5)
  (data (memory $b) (i64.const 8) "b")
  (data $p "p")
  (func (export "both") (param i64) (result i32)
    (memory.copy $a $a (i32.const 0) (i32.const 4) (i32.const 2))
    (memory.init $b $p (local.get 0) (i32.const 0) (i32.const 1))
    (drop (memory.grow $b (i64.const 1)))
    (i32.add (i32.load $a (i32.const 0)) (i32.load8_u $b offset=4294967295 (local.get 0)))))
