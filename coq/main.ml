(* mapf-recheck-coq MAP SCEN K PLAN CERT: opens the files, has the checker that Coq extracted judge their bytes, and
   prints what it answers. *)

open Checker
open Judging

let fault line = prerr_endline line; exit 2

let opened path = try open_in_bin path with Sys_error why -> fault why

let text_of_bytes part count = text_of (fun i -> Char.code (Bytes.get part i)) count

(* The next bytes of a file are put at the beginning of [part]: how many there are. *)
let read file part = try input file part 0 (Bytes.length part) with Sys_error why -> fault why

let whole path =
  let file = opened path in
  let text = Buffer.create 65536 in
  let part = Bytes.create 4096 in
  let rec go_on () =
    match read file part with
    | 0 -> ()
    | count -> Buffer.add_subbytes text part 0 count; go_on () in
  go_on ();
  text_of_bytes (Buffer.to_bytes text) (Buffer.length text)

let judge_files map scen number plan cert =
  let file = opened cert in
  let part = Bytes.create 4096 in
  judge (prepare (whole map) (whole scen) number (whole plan)) (fun () -> text_of_bytes part (read file part))

let () =
  Gc.set { (Gc.get ()) with Gc.minor_heap_size = 1 lsl 21; space_overhead = 1000 };
  match Sys.argv with
  | [| _; map; scen; k; plan; cert |] ->
    (match agents_of (text_of_bytes (Bytes.of_string k) (String.length k)) with
     | Some number ->
       let result = judge_files map scen number plan cert in
       print_endline (line_of result);
       exit (match result with Good _ -> 0 | Bad _ -> 1)
     | None -> fault "mapf-recheck-coq: K isn't a number from 1 to 200")
  | _ -> fault "usage: mapf-recheck-coq MAP SCEN K PLAN CERT"
