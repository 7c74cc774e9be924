#!/usr/bin/env python3
"""Changes one definition at a time: `python3 mutants.py FOLDER [COUNT]`, by hand over all, and in .ci/coq over the first COUNT.

FOLDER has the files with what coqc made of them, as .ci/coq leaves out/coq. Each wrong definition must stop a proof, an
example, or what the kernel finds about the routes and the worked triples. Prints what stopped it, and ends with 1 if
nothing did. All take about ten minutes of one processor.
"""
import os
import shutil
import subprocess
import sys
import tempfile

ORDER = ["Pieces", "Duality", "LeastRedwork", "Needles", "Classes", "OddJunctions", "Formats", "Judge", "Files", "Examples", "Kernel"]

# The file, what stands there once, and what comes in its place. The first ones are run by .ci/coq.
MUTANTS = [
    ("LeastRedwork", "from + i * (to - from) / n", "from + Z.quot (i * (to - from)) n"),
    ("Formats", "(0, 9); (0, -9); (-9, 0); (9, 0)", "(0, 9); (0, -9); (9, 0); (-9, 0)"),
    ("Pieces", "<= 2 * cost_of p l", "<= 3 * cost_of p l"),
    ("LeastRedwork", "if back q then rev (needles_of_line d (line q))", "if back q then (needles_of_line d (line q))"),
    # Threads and packings.
    ("Pieces", "(fst p =? fst q) && (snd p =? snd q)", "(fst p =? fst q)"),
    ("Pieces", "if back q then last_of p (line q)", "if back q then first_of p (line q)"),
    ("Pieces", "if back q then first_of p (line q) else last_of p (line q)", "if back q then last_of p (line q) else first_of p (line q)"),
    ("Pieces", "pass_start p q = from /\\ Leads", "Leads"),
    ("Pieces", "from = s /\\ to = e", "from = s"),
    ("Pieces", "from = s /\\ to = s", "from = s"),
    ("Pieces", "| None, None => from = to", "| None, None => True"),
    ("Pieces", "Forall (fun q => In (line q) (lines_of p)) walk /\\", ""),
    ("Pieces", "Forall (fun l => In l (map line walk)) (lines_of p) /\\", ""),
    ("Pieces", "sum_by (fun q => cost_of p (line q)) walk", "sum_by (fun q => 2 * cost_of p (line q)) walk"),
    ("Pieces", "walk_cost p walk <= walk_cost p other", "walk_cost p other <= walk_cost p walk"),
    ("Pieces", "then points else points ++ [q]", "then points else q :: points"),
    ("Pieces", "[first_of p l; last_of p l]", "[last_of p l; first_of p l]"),
    ("Pieces", "then 0 else 1 + junction_number", "then 1 else 1 + junction_number"),
    ("Pieces", "xorb (holds_point p c q) (holds_point p c r)", "orb (holds_point p c q) (holds_point p c r)"),
    ("Pieces", "parts p c (first_of p l) (last_of p l)", "holds_point p c (first_of p l)"),
    ("Pieces", "if parts p c s e then 1 else 0", "if parts p c s e then 0 else 1"),
    ("Pieces", " + given_apart p c) mod 2", ") mod 2"),
    ("Pieces", "mod 2 = 1", "mod 2 = 0"),
    ("Pieces", "0 <= m < Z.of_nat", "0 <= m <= Z.of_nat"),
    ("Pieces", "then weight c else 0", "then 1 else 0"),
    ("Pieces", "0 <= weight c /\\ IsOddOver p c", "IsOddOver p c"),
    # Steps, needle points and pieces.
    ("LeastRedwork", "Z.max (Z.abs (fst move))", "Z.add (Z.abs (fst move))"),
    ("LeastRedwork", "+ step - 1) / step", "+ step) / step"),
    ("LeastRedwork", "from + i * (to - from) / n", "from + i * (to - from) / (n + 1)"),
    ("LeastRedwork", "coordinate_on_segment (snd p) (snd q) n i", "coordinate_on_segment (snd p) (fst q) n i"),
    ("LeastRedwork", "range_with_len 1 (Z.to_nat n)", "range_with_len 0 (Z.to_nat n)"),
    ("LeastRedwork", "++ segment_points step q rest", "++ segment_points step p rest"),
    ("LeastRedwork", "(block a =? block b) && shares_point", "shares_point"),
    ("LeastRedwork", "shares_point (endpoints (points a)) (endpoints (points b))", "shares_point (points a) (points b)"),
    ("LeastRedwork", "~ AreConnected d (first_line a) (first_line b)", "first_line a <> first_line b"),
    ("LeastRedwork", "Forall (AreConnected d (first_line piece)) piece", "Forall (IsLineOf d) piece"),
    ("LeastRedwork", "IsLineOf d l -> In l (concat pieces)", "In l (concat pieces) -> IsLineOf d l"),
    ("LeastRedwork", "Forall (IsLineOf d) (concat pieces)", "Forall (fun _ => True) (concat pieces)"),
    ("LeastRedwork", "Forall (StronglySorted Z.lt) pieces", "Forall (StronglySorted Z.le) pieces"),
    ("LeastRedwork", "StronglySorted Z.lt (map first_line pieces)", "NoDup (map first_line pieces)"),
    ("LeastRedwork", "(spot_block s =? block_of d (first_line piece)) &&", "true &&"),
    ("LeastRedwork", "flat_map (fun l => endpoints (points_of d l)) piece", "flat_map (points_of d) piece"),
    ("LeastRedwork", "(given_point d piece (starts d)) (given_point d piece (ends d))", "(given_point d piece (ends d)) (given_point d piece (starts d))"),
    # Acts.
    ("LeastRedwork", "(jumped && negb loose)", "jumped"),
    ("LeastRedwork", "acts_from loose true rest", "acts_from loose false rest"),
    ("LeastRedwork", "if loose then acts_from true jumped rest else", "if false then acts_from true jumped rest else"),
    ("LeastRedwork", "StopAct :: acts_from true false rest", "StopAct :: acts_from false false rest"),
    ("LeastRedwork", "tl (needles_of_pass d next)", "needles_of_pass d next"),
    ("LeastRedwork", "Z.to_nat (block_of_passes d walk - before)", "Z.to_nat (block_of_passes d walk)"),
    ("LeastRedwork", "TrimAct :: sewn_acts_after", "sewn_acts_after"),
    ("LeastRedwork", "Needle p false) (needles_of_walk", "Needle p true) (needles_of_walk"),
    # The headline.
    ("LeastRedwork", "thread : IsThreadOver (piece_graph d piece) (walk cert)", "thread : True"),
    ("LeastRedwork", "<= length (needles_of_walk d other))%nat", "<= S (length (needles_of_walk d other)))%nat"),
    ("LeastRedwork", "+ retraced cert + 1;", "+ retraced cert;"),
    ("LeastRedwork", "packing : IsPackingOver (piece_graph d piece) (cuts cert)", "packing : True"),
    ("LeastRedwork", "sum_by weight (cuts cert) = 2 * retraced cert", "sum_by weight (cuts cert) <= 2 * retraced cert"),
    ("LeastRedwork", "pieces_are : ArePieces d pieces", "pieces_are : True"),
    ("LeastRedwork", "Forall2 (IsLeastThread d) pieces certs", "length pieces = length certs"),
    ("LeastRedwork", "sewn : acts_along design = sewn_acts_after d 0 (map walk certs)", "sewn : True"),
    # The readers.
    ("Formats", "is_point_within 30000 p", "is_point_within 30001 p"),
    ("Formats", "is_point_within 32767 p", "is_point_within 30000 p"),
    ("Formats", "then [StopEvent] else [StopEvent; JumpBy move]", "then [StopEvent] else [StopEvent; StitchBy move]"),
    ("Formats", "(0, 3); (0, -3); (0, 27)", "(0, 1); (0, -3); (0, 27)"),
    ("Formats", "(fst up, - snd up)", "(fst up, snd up)"),
    ("Formats", "Z.land c 243 =? 243", "Z.land c 243 =? 195"),
    ("Formats", "if Z.land c 3 =? 3 then match", "if Z.land c 2 =? 2 then match"),
    ("Formats", "if jumps =? 2 then", "if 2 <=? jumps then"),
    ("Formats", "followed_by (stop_by move) (dst_events 0 rest)", "followed_by (stop_by move) (dst_events jumps rest)"),
    ("Formats", "only (512 <=? size file)", "only (511 <=? size file)"),
    ("Formats", "if value <? n / 2", "if value <=? n / 2"),
    ("Formats", "0x02 => followed_by [StitchBy move]", "0x02 => followed_by [JumpBy move]"),
    ("Formats", "[StitchBy (signed 256 a, - signed 256 b)]", "[StitchBy (signed 256 a, signed 256 b)]"),
    ("Formats", "signed 4096 (Z.land a 15 * 256 + b)", "signed 4096 (Z.land a 31 * 256 + b)"),
    ("Formats", "Z.land (a / 16) 3", "Z.land (a / 32) 3"),
    ("Formats", "Z.lor (marks a) (marks c)", "marks a"),
    ("Formats", "offset + 528 <=? size file", "offset + 512 <=? size file"),
    ("Formats", "(pec_block 8 file)", "(pec_block 10 file)"),
    ("Formats", "a + 256 * (b + 256 * (c + 256 * e))", "e + 256 * (c + 256 * (b + 256 * a))"),
    ("Formats", "negb (last label 0x21 =? 0x20)", "true"),
    ("Formats", "(blocks <? 255))\n        (if blocks", "(blocks <? 256))\n        (if blocks"),
    ("Formats", "only (loose || (jumps <=? 1))", "only (loose || (jumps <=? 2))"),
    ("Formats", "if 3 <=? jumps then 1 else 0", "if 4 <=? jumps then 1 else 0"),
    ("Formats", "Z.max jumps 1 + 1", "jumps + 1"),
    ("Formats", "(Draft false false 0 (Drawing 25 [] [] []))", "(Draft false false 0 (Drawing 20 [] [] []))"),
    ("Formats", "number 1 2047 w", "number 0 2047 w"),
    ("Formats", "negb (has_repeat points)", "true"),
    ("Formats", 'is_text k "start" && third', 'is_text k "start"'),
    ("Formats", "2 <=? count_by (is_same_point p)", "1 <=? count_by (is_same_point p)"),
    ("Formats", "(filter (fun l => block l =? b) ls)", "ls"),
    ("Formats", "if is_cut q then [p; q] :: behind", "if is_cut q then [q] :: behind"),
    ("Formats", 'if is_text version "1" then drawn s else', 'if is_text version "2" then drawn s else'),
    ("Formats", "(size (points_of_lines (lines d)) <=? 65536)", "(size (points_of_lines (lines d)) <=? 65537)"),
    ("Formats", "<=? 200000", "<=? 200001"),
    ("Formats", "spots) <=? 1) pieces", "spots) <=? 2) pieces"),
    ("Formats", "is_in least 4294967295 (plain word)", "is_in least 4294967296 (plain word)"),
    ("Formats", "Pass (Z.abs n - 1) (n <? 0)", "Pass (Z.abs n - 1) (0 <? n)"),
    ("Formats", "(a <? b) && is_strictly_increasing", "(a <=? b) && is_strictly_increasing"),
    ("Formats", "Cut w (map Z.pred js)", "Cut w js"),
    ("Formats", "only (has_walk last) (Some", "only true (Some"),
    ("Formats", "only (negb (has_walk last)) (Some", "only true (Some"),
    # The functions that are proved.
    ("Classes", "filter (fun group => negb (meets x group)) groups", "filter (fun group => false) groups"),
    ("Judge", "both (fun piece cert => check_piece (piece_graph d piece) cert) (pieces_of d) certs &&", "true &&"),
    ("Judge", "both is_same_act (acts_along design) (sewn_acts_after d 0 (map walk certs))", "true"),
    ("Judge", "(total_weight (cuts cert) =? 2 * retraced cert)", "(total_weight (cuts cert) <=? 2 * retraced cert)"),
    ("Files", "Definition most_bytes := 67108864", "Definition most_bytes := 67108865"),
]


def stopped_by(built, name, old, new):
    """The file in which coqc stops after a change, with the line and what it says, or None."""
    with tempfile.TemporaryDirectory() as folder:
        for each in os.listdir(built):
            if each.endswith((".v", ".vo")):
                shutil.copy(os.path.join(built, each), folder)
        path = os.path.join(folder, f"{name}.v")
        with open(path, encoding="utf-8") as file:
            text = file.read()
        if text.count(old) != 1:
            sys.exit(f"coq: {name}.v has {text.count(old)} times: {old}")
        with open(path, "w", encoding="utf-8") as file:
            file.write(text.replace(old, new))
        for each in ORDER[ORDER.index(name):]:
            if os.path.exists(os.path.join(folder, f"{each}.v")):
                done = subprocess.run(["coqc", "-q", "-Q", ".", "Redwork", f"{each}.v"], cwd=folder, capture_output=True, text=True, check=False)
                if done.returncode:
                    return f"{each}.v: {' '.join(done.stderr.split())[:90]}"
        return None


def main(built, count=len(MUTANTS)):
    """Tries the first mutants, and prints what stopped each."""
    passed = 0
    for number, (name, old, new) in enumerate(MUTANTS[:int(count)], 1):
        stop = stopped_by(built, name, old, new)
        passed += stop is None
        if stop is None or int(count) == len(MUTANTS):
            print(f"{number} {name}.v: {' '.join(old.split())[:60]} -> {' '.join(new.split())[:60]}: {stop or 'NOTHING STOPS IT'}", flush=True)
    print(f"coq: {int(count) - passed} of {count} wrong definitions are noticed")
    sys.exit(passed > 0)


if __name__ == "__main__":
    main(*sys.argv[1:])
