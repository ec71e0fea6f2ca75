;; Exceptions in their older form: tags, try, catch, delegate, throw and rethrow.
(module
  (tag $e (export "tag") (param i32))
  (tag $f)
  (func (export "caught") (param i32) (result i32)
    (try (result i32)
      (do (throw $e (local.get 0)))
      (catch $e)
      (catch $f (i32.const 7))
      (catch_all (rethrow 0))))
  (func (export "delegated") (try (do (try (do (throw $f)) (delegate 0))) (catch_all))))
