(* How the checker that Coq extracted is given its texts, and how its answer becomes a line. A byte is handed over as one
   of Coq's binary numbers. *)

open Checker

let rec positive_of_int i =
  if i = 1 then XH else if i land 1 = 0 then XO (positive_of_int (i lsr 1)) else XI (positive_of_int (i lsr 1))

let bytes = Array.init 256 (fun i -> if i = 0 then N0 else Npos (positive_of_int i))

let rec int_of_positive = function XH -> 1 | XO p -> 2 * int_of_positive p | XI p -> 2 * int_of_positive p + 1

let char_of_byte = function N0 -> '\000' | Npos p -> Char.chr (int_of_positive p)

(* A text of so many bytes, of which [byte] gives each by its place. *)
let text_of byte count =
  let rec before i list = if i < 0 then list else before (i - 1) (bytes.(byte i) :: list) in
  before (count - 1) []

let line_of result = String.of_seq (Seq.map char_of_byte (List.to_seq (result_text result)))

(* Whether there may be so many agents. The checker counts them one by one, so a greater number isn't handed to it. *)
let is_number_of_agents number = Array.mem number (Array.sub bytes 1 200)

(* The number of agents that a text spells. *)
let agents_of text =
  match read_number text with Some number when is_number_of_agents number -> Some number | _ -> None

(* Hands the certificate over in parts, and stops where it is refused. After the last part [next] gives an empty one. *)
let rec take_certificate task reading next =
  match next () with
  | [] -> reading
  | part ->
    let reading = take_bytes task reading part in
    if is_refused reading.its_state then reading else take_certificate task reading next

(* Judges a certificate with what was prepared of the other texts. *)
let judge prepared next =
  match prepared with
  | Bad why -> Bad why
  | Good task -> conclude task (take_certificate task begin0 next)
