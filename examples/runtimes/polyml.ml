(* poly -q --error-exit -H 1000 --script polyml.ml FOLDER DEPTH: writes the heap below `judged` before and after
   collections of Poly/ML, and with errors in it.

   A file has lines of objects by name, and a name is the object's address. The words come from memory: one whose lowest
   bit is set is a number, and any other one is an address. The word in front of an object is its header: flags in the
   top byte, and the number of its words. An address without a header in front of it is written as it is, and no object
   has that name. Where memory is in use is not known: a stale slot may lead to what looks like an object, or crash the
   walk. The walk allocates. No collection may run in it, so it needs 1,000 MB for 14 levels. *)
val (depth, folder) = case rev (CommandLine.arguments ()) of
  depth :: folder :: _ => (valOf (Int.fromString depth), folder) | _ => raise Fail "it needs a folder and a depth";
fun say line = (print (line ^ "\n"); TextIO.flushOut TextIO.stdOut);

fun any value = RunCall.unsafeCast value : word;
fun address value = SysWord.<< (Word.toLargeWord (any value), 0w1); (* which cuts the lowest bit off *)
fun word (place, index) = Foreign.Memory.get64 (Foreign.Memory.sysWord2VoidStar place, index);
fun write (place, index, new) = Foreign.Memory.set64 (Foreign.Memory.sysWord2VoidStar place, index, new);
fun flags place = SysWord.>> (word (place - 0w8, 0w0), 0w56);
fun count place = SysWord.andb (word (place - 0w8, 0w0), 0wxffffffffffffff);
fun isNumber bits = SysWord.andb (bits, 0w1) = 0w1;
fun isObject bits = not (isNumber bits) andalso flags bits < 0w128 andalso count bits < 0wx1000000;
fun words place = List.tabulate (SysWord.toInt (count place), fn index => word (place, Word.fromInt index));

fun name bits = "0x" ^ SysWord.toString bits;
fun slot bits = if isNumber bits then " -" else " " ^ name bits;
fun number bits = SysWord.toIntX (SysWord.~>> (bits, 0w1));
fun data bits = if isNumber bits then " " ^ String.map (fn #"~" => #"-" | digit => digit) (Int.toString (number bits)) else " 0";

(* The type of an object, its slots and its data words. The first word of ours is the number of a type. *)
val (judgedType, nodeType) = (7000001, 7000002);
fun typeOf first =
  if not (isNumber first) then "words"
  else if number first = judgedType then "judged" else if number first = nodeType then "node" else "words";
fun parts place =
  case (SysWord.andb (flags place, 0w3), words place) of
      (0w0, all) => (typeOf (hd all), all, map data all)
    | (0w1, all) => ("bytes", [], map (fn bits => " " ^ name bits) all)
    | _ => ("code", [], []);

fun collections () = let val now = PolyML.Statistics.getLocalStats () in #gcFullGCs now + #gcPartialGCs now end;
fun walk (root, step) =
  let
    val (ran, file, known) = (collections (), TextIO.openOut (folder ^ "/" ^ step ^ ".txt"), Array.array (65536, []))
    fun isNew place =
      let
        val index = SysWord.toInt (SysWord.andb (SysWord.>> (place, 0w3), 0wxffff))
        val others = Array.sub (known, index)
      in
        not (List.exists (fn other => other = place) others) andalso (Array.update (known, index, place :: others); true)
      end
    fun put texts = app (fn text => TextIO.output (file, text)) texts
    fun visit [] = ()
      | visit (place :: rest) =
          if not (isObject place andalso isNew place) then visit rest
          else
            let val (kind, slots, data) = parts place
            in
              put ["object ", name place, " ", Int.toString (2 + length slots + length data), "/", Int.toString (length slots)];
              put (map slot slots); put (" \"" :: kind :: "\"" :: data @ ["\n"]);
              visit (slots @ rest)
            end
  in
    TextIO.output (file, "graph\nroot " ^ name (address root) ^ " as judged\n");
    visit [address root];
    TextIO.closeOut file;
    if collections () = ran then () else raise Fail "a collection ran in the walk: give more memory by -H"
  end;

val names = TextIO.openOut (folder ^ "/names");
val () = app (fn (kind, slots, data) => TextIO.output (names, "label \"" ^ kind ^ "\" " ^ kind ^ "\ntype " ^ kind ^ " slots " ^ slots ^
                                                              " data class " ^ data ^ "\n"))
  (map (fn (kind, fields) => (kind, fields, fields))
     [("judged", "type root renewed cycle big real call"), ("node", "type left right key name"), ("words", "[]")] @ [("bytes", "", "[]")]);
val () = TextIO.closeOut names;

(* The heap that is judged. Half of the garbage, which lies between the nodes, dies before each collection. *)
fun object words = any (Array.fromList words);
fun get (object, index) = Array.sub (RunCall.unsafeCast object : word array, index);
fun set (object, index, value) = Array.update (RunCall.unsafeCast object : word array, index, value);
fun node (left, right, key) = object [any nodeType, left, right, any key, any ("node " ^ Int.toString key)];
val garbage = ref [any 0];
fun tree (0, _) = any 0
  | tree (level, key) =
      let val (left, right) = (tree (level - 1, 2 * key), tree (level - 1, 2 * key + 1))
      in garbage := object [left, right] :: !garbage; node (left, right, key) end;
fun half (first :: _ :: rest) = first :: half rest
  | half rest = rest;
fun renew old = (* Each old node below gets a young one on its right. These are returned. *)
  if get (old, 1) = any 0 then []
  else
    let val right = get (old, 2)
    in
      set (old, 2, node (get (right, 1), get (right, 2), RunCall.unsafeCast (get (right, 3)) : int));
      get (old, 2) :: renew (get (old, 1)) @ renew (get (old, 2))
    end;
val cycle = object [any 1, any 2];
val () = set (cycle, 1, cycle);
val judged = object
  [any judgedType, tree (depth, 1), any 0, cycle, any (IntInf.pow (3, 200)), any (real depth / 3.0), any (fn key => key + depth)];
val () = PolyML.fullGC ();
val () = set (judged, 2, any (Vector.fromList (renew (get (judged, 1)))));
val () = (walk (judged, "before"); say "before");

fun young ran = if collections () > ran then () else (ignore (Array.array (100, 0)); young ran);
fun collect (step, run) = (garbage := half (!garbage); run (); walk (judged, step); say ("collection " ^ step));
fun place () = address (get (get (judged, 1), 1));
fun plant (step, index, wrong, found) =
  let val right = word (place (), index)
  in write (place (), index, wrong); walk (judged, step); say ("planted " ^ step ^ " " ^ found); write (place (), index, right) end;
val () = collect ("young", fn () => young (collections ()));
val () = collect ("full", PolyML.fullGC);
val () = collect ("compact", PolyML.fullGC);
val () = if word (place (), 0w3) = 0w5 then () else raise Fail "this Poly/ML writes small numbers otherwise";
val () = plant ("wrong", 0w2, word (address (get (judged, 1)), 0w2), "split judged.root.left.right node");
val () = plant ("torn", 0w3, 0wx5505, "data judged.root.left node key");
val () = (walk (judged, "again"); say "again");
