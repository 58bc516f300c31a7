(* What the page's worker calls: judge(MAP, SCEN, K, PLAN, next), where a text is an array of bytes and next() answers
   the next part of the certificate, an empty one after the last. It answers null where K isn't a number from 1 to 200,
   else two lines: the checker's, and what it answered of the other texts before it took the certificate. The second is
   'optimal C' of a valid plan of cost C, whatever the certificate shows; null where it didn't come so far. *)

open Js_of_ocaml

let text_of_array array = Judging.text_of (Js.Unsafe.get array) (Js.Unsafe.get array (Js.string "length"))
let js_line result = Js.string (Judging.line_of result)

let judge map scen k plan next =
  let next_part () = text_of_array (Js.Unsafe.fun_call next [||]) in
  match Judging.agents_of (text_of_array k) with
  | None -> Js.null
  | Some number ->
    let prepared = Checker.prepare (text_of_array map) (text_of_array scen) number (text_of_array plan) in
    let answer =
      match prepared with
      | Checker.Bad _ -> Js.null
      | Checker.Good task -> Js.some (js_line (Checker.Good task.Checker.its_answer)) in
    let line = js_line (Judging.judge prepared next_part) in
    Js.some (Js.array [| Js.some line; answer |])

let () = Js.export "judge" (Js.wrap_callback judge)
