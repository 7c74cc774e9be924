(* The checker of files as a program. Each line of standard input names a drawing, a design and a certificate, and for each
   it prints yes or no. Of the lines beside the extracted check, those up to [format] and the case of three names are
   trusted: they read bytes and choose the format. A line that names one file gets what its reader makes of it. *)
open Redwork

let rec positive n = if n = 1 then XH else if n land 1 = 1 then XI (positive (n lsr 1)) else XO (positive (n lsr 1))
let numbers = Array.init 256 (fun n -> if n = 0 then Z0 else Zpos (positive n))

let bytes name =
  let file = open_in_bin name in
  let text = really_input_string file (in_channel_length file) in
  close_in file;
  let rec from at rest = if at < 0 then rest else from (at - 1) (numbers.(Char.code text.[at]) :: rest) in
  from (String.length text - 1) []

let ending name = String.lowercase_ascii (Filename.extension name)
let format name = match ending name with
  | ".dst" -> DST | ".exp" -> EXP | ".pec" -> PEC | ".pes" -> PES | ".lst" -> LST
  | other -> failwith ("no format " ^ other)

(* What readers make of files, as a text to compare. *)
let rec whole = function XH -> 1 | XO p -> 2 * whole p | XI p -> 2 * whole p + 1
let int = function Z0 -> 0 | Zpos p -> whole p | Zneg p -> - whole p
let list show l = String.concat " " (List.map show l)
let number n = string_of_int (int n)
let point (x, y) = number x ^ "," ^ number y
let act = function
  | Needle (p, true) -> "float:" ^ point p | Needle (p, false) -> "needle:" ^ point p
  | TrimAct -> "trim" | StopAct -> "stop"
let line l = number l.block ^ ":" ^ list point l.points
let spot s = number s.spot_block ^ ":" ^ point s.at_point
let pass q = (if q.back then "-" else "") ^ string_of_int (int q.line + 1)
let cut c = number c.weight ^ ":" ^ list (fun m -> string_of_int (int m + 1)) c.members
let drawing d = String.concat ";" [number d.step; String.concat "/" (List.map line d.lines); list spot d.starts;
  list spot d.ends; String.concat "/" (List.map (list number) (pieces_of d))]
let cert c = String.concat ";" [number c.retraced; list pass c.walk; String.concat "/" (List.map cut c.cuts)]
let read name =
  let shown show = function Some value -> show value | None -> "refused" in
  match ending name with
  | ".rw" -> shown drawing (drawing_of (bytes name))
  | ".cert" -> shown (fun certs -> "certificate|" ^ String.concat "|" (List.map cert certs)) (cert_of (bytes name))
  | _ -> shown (fun design -> "acts " ^ list act (acts_along design)) (design_of (format name) (bytes name))

let () =
  try
    while true do
      print_endline (match String.split_on_char ' ' (read_line ()) with
        | [drawing; design; cert] ->
          if check_files (format design) (bytes drawing) (bytes design) (bytes cert) then "yes" else "no"
        | [name] -> read name
        | _ -> failwith "a line names one file or three")
    done
  with End_of_file -> ()
