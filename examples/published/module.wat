;; Functions of 32-bit integers.
(module
  ;; Tells whether a code is that of an error.
  (func (export "is_error") (param $code i32) (result i32)
    (i32.ne (local.get $code) (i32.const 0)))

  ;; Gives a number.
  (func (export "answer") (result i32)
    (i32.const 42))

  ;; How many bytes so many pages hold.
  (func (export "page_bytes") (param $pages i32) (result i32)
    (i32.shl (local.get $pages) (i32.const 16)))

  ;; Two and three times a number.
  (func (export "twice") (param $number i32) (result i32)
    (i32.mul (local.get $number) (i32.const 2)))
  (func (export "thrice") (param $number i32) (result i32)
    (i32.mul (local.get $number) (i32.const 3)))

  ;; The area and the perimeter of a rectangle.
  (func (export "area") (param $width i32) (param $height i32) (result i32)
    (i32.mul (local.get $width) (local.get $height)))
  (func (export "perimeter") (param $width i32) (param $height i32) (result i32)
    (i32.mul (i32.add (local.get $width) (local.get $height)) (i32.const 2)))

  ;; The volume of a cube.
  (func (export "volume") (param $edge i32) (result i32)
    (i32.mul (i32.mul (local.get $edge) (local.get $edge)) (local.get $edge)))

  ;; Adds two numbers.
  (func (export "sum") (param $a i32) (param $b i32) (result i32)
    (i32.add (local.get $a) (local.get $b))))
