;; Vectors of 128 bits.
(module
  (memory 1)
  (global (export "constant") v128 (v128.const i8x16 0 1 2 3 4 5 6 7 8 9 10 11 12 13 14 255))
  (func (export "vectors") (param i32 v128 v128) (result v128)
    (v128.store offset=16 (local.get 0) (v128.load align=8 (local.get 0)))
    (drop (v128.load8x8_s (local.get 0))) (drop (v128.load16x4_u (local.get 0))) (drop (v128.load32_splat (local.get 0))) (drop (v128.load64_zero (local.get 0)))
    (drop (v128.load8_lane 15 (local.get 0) (local.get 1))) (v128.store64_lane offset=3 1 (local.get 0) (local.get 1))
    (drop (i8x16.shuffle 0 1 2 3 4 5 6 7 24 25 26 27 28 29 30 31 (local.get 1) (local.get 2)))
    (drop (i8x16.extract_lane_u 15 (local.get 1))) (drop (f64x2.extract_lane 1 (local.get 1)))
    (drop (f32x4.replace_lane 3 (local.get 1) (f32.const 1)))
    (i32x4.add (i8x16.swizzle (local.get 1) (local.get 2)) (f64x2.convert_low_i32x4_u (v128.bitselect (local.get 1) (local.get 2) (i16x8.splat (local.get 0)))))))
