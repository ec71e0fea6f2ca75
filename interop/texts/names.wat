;; Names of a module and its functions, and texts beyond ASCII.
(module $named
  (func $first (export "pi π") (result i32) (i32.const 3))
  (func $second (export "") (result i32) (call $first)))
