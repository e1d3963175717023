(* judge DEPTH: builds values of many kinds, and writes them as lines before and after each of OCaml's collections: minor,
   major, compaction. The last file has one field that the program changed, which `g1heap same` must find. *)

external walk : string -> 'a -> int = "g1_walk"

module Numbers = Map.Make (Int)

type tree = Leaf | Node of { mutable left : tree; number : int; mutable right : tree; weight : float; name : string }

type heap = {
  map : string Numbers.t;
  table : (string, tree) Hashtbl.t;
  floats : float array;
  humongous : int array;
  mutable self : heap option;
  add : int -> int;
  wide : int64 list;
  bytes : Bytes.t;
}

let rec tree depth number =
  if depth = 0 then Leaf
  else
    Node { left = tree (depth - 1) (2 * number); number; right = tree (depth - 1) ((2 * number) + 1);
           weight = float number; name = string_of_int number }

let built depth =
  let garbage = ref [] and table = Hashtbl.create 16 and count = Array.length Sys.argv in
  for i = 0 to 2000 do
    garbage := Array.make 50 i :: !garbage;
    Hashtbl.replace table (string_of_int i) (tree 3 i)
  done;
  Hashtbl.replace table "large" (tree depth 1);
  let add_number map i = Numbers.add i ("value " ^ string_of_int i) map in
  let heap =
    { map = List.fold_left add_number Numbers.empty (List.init 5000 (fun i -> 7 * i)); table;
      floats = Array.init 1000 float; humongous = Array.init 100000 Fun.id; self = None; add = (fun x -> x + count);
      wide = [ 1L; 2L; 3L ]; bytes = Bytes.make 100 'x' } in
  heap.self <- Some heap;
  heap

let churn () =
  for i = 1 to 20 do
    ignore (Sys.opaque_identity (tree 14 i))
  done

let change heap =
  match Hashtbl.find heap.table "large" with
  | Node { left = Node below; _ } -> below.right <- below.left
  | _ -> failwith "the tree is too small: DEPTH is at least 3"

let () =
  let depth = match Sys.argv with
    | [| _; depth |] -> int_of_string depth
    | _ -> prerr_endline "usage: judge DEPTH"; exit 2 in
  let heap = built depth in
  let report name collect =
    collect ();
    let objects = walk (name ^ ".txt") heap in
    let done_so_far = Gc.quick_stat () in
    Printf.printf "%s: %d objects; so far %d minor and %d major collections, %d compactions\n%!" name objects
      done_so_far.Gc.minor_collections done_so_far.Gc.major_collections done_so_far.Gc.compactions in
  report "before" ignore;
  report "minor" Gc.minor;
  report "major" (fun () -> churn (); Gc.full_major ());
  report "compact" Gc.compact;
  report "changed" (fun () -> change heap)
