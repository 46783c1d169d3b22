"""The sources of the page's module: what it exports, what that promises, and why.

They stand here, and not among the crates: the gate builds for the program's processor alone, and takes no crate for another one.
"""

NAME = "shipgate_page"

# the libraries that the module names
USED = ("capture_stream", "capture_text", "command_line", "gate_outside", "line_commands")

SOURCES = {}

SOURCES["src/lib.rt"] = """//! `convert` and `show` of shipgate for a web page: the page gives a capture and room for the text, and learns how much of the room was filled and whether
//! that is all.
#![tactic(auto)]

mod capture;
mod room;

ghost use Rattle.command_line.specs.declared.words.LineCommand.TheVariants.{Convert, Show};
ghost use Rattle.shipgate_page.specs.Answer.{Answers};

use crate::capture::Capture;
use crate::room::Room;
use command_line::LineCommand;
use line_commands::answer_lines;

/// Writes the sentences of a capture into the room, counts their bytes, and answers the status that the program would end with.
#[unsafe(no_mangle)]
pub extern "C" fn convert(capture: &[u8], room: &mut [u8], count: &mut usize) -> u8
    ensures { Answers Convert capture.now room.new count.new result }
{
    answer(LineCommand::Convert, capture, room, count)
}

/// The same, of what each line of the capture says in plain numbers.
#[unsafe(no_mangle)]
pub extern "C" fn show(capture: &[u8], room: &mut [u8], count: &mut usize) -> u8
    ensures { Answers Show capture.now room.new count.new result }
{
    answer(LineCommand::Show, capture, room, count)
}

fn answer(command: LineCommand, capture: &[u8], room: &mut [u8], count: &mut usize) -> u8
    ensures { Answers command capture.now room.new count.new result }
{
    let mut source = Capture::new(capture);
    let mut sink = Room::new(room);
    let status = answer_lines(command, &mut source, &mut sink);
    *count = sink.count;
    status.number()
}
"""

SOURCES["src/capture.rt"] = """//! The capture that a page gives, as a source.
use gate_outside::{Failed, Source};

/// What is left of a capture. No read of it fails.
#[derive(Drop)]
pub(crate) struct Capture<'a> {
    bytes: &'a [u8],
}

impl<'a> Capture<'a> {
    ghost use Rattle.std.specs.Prelude.{◌≡◌};

    pub(crate) fn new(bytes: &'a [u8]) -> Self
        ensures { result.bytes.now ≡ bytes.now }
    {
        Capture { bytes }
    }
}

impl Source for Capture<'_> {
    ghost use Rattle.std.specs.Prelude.{Some};

    ghost left = { λ s. Some s.bytes.now };

    ghost fault_count = { λ _. 0 };

    fn faults(&self) -> u64 {
        0
    }

    fn read(&mut self, buf: &mut [u8]) -> Result<usize, Failed> {
        let count = buf.len().min(self.bytes.len());
        let (piece, rest) = self.bytes.split_at(count);
        buf[..count].copy_from_slice(piece);
        self.bytes = rest;
        Ok(count)
    }
}
"""

SOURCES["src/room.rt"] = """//! The room that a page gives for what is written, as a sink.
ghost use Rattle.std.specs.Prelude.{◌≡◌, ◌<◌, ◌≤◌, length};

use gate_outside::{Failed, Sink};

/// A room whose front is filled. A write fails where it is full.
#[derive(Drop)]
pub(crate) struct Room<'a> {
    bytes: &'a mut [u8],
    /// How many bytes are filled.
    pub(crate) count: usize,
    faults: u64,
    ghost within: { count ≤ length bytes.now },
    ghost full: { 0 < faults → count ≡ length bytes.now },
}

impl<'a> Room<'a> {
    ghost use Rattle.std.specs.Prelude.{◌≡◌};

    pub(crate) fn new(bytes: &'a mut [u8]) -> Self
        ensures same_reference { result.bytes.ghost_name ≡ bytes.entry.ghost_name }
        ensures length { length result.bytes.now ≡ length bytes.old }
        ensures empty { result.count ≡ 0 }
        ensures no_fault { result.faults ≡ 0 }
    {
        Room {
            bytes,
            count: 0,
            faults: 0,
        }
    }
}

impl Sink for Room<'_> {
    ghost use Rattle.std.specs.Prelude.{Some, ◌∷◌, take};

    // The ghost name of the room comes first. So what was taken also says that it went into this room, and into no other one.
    ghost taken = { λ s. Some (s.bytes.ghost_name ∷ take s.count s.bytes.now) };

    ghost fault_count = { λ s. s.faults };

    fn faults(&self) -> u64 {
        self.faults
    }

    fn write(&mut self, piece: &[u8]) -> Result<usize, Failed> {
        let free = self.bytes.len() - self.count;
        if free == 0 && !piece.is_empty() {
            self.faults = self.faults.saturating_add(1);
            return Err(Failed);
        }
        let count = free.min(piece.len());
        self.bytes[self.count..self.count + count].copy_from_slice(&piece[..count]);
        self.count += count;
        Ok(count)
    }
}
"""

SOURCES["specs/Lib.antt"] = """pub mod Answer
"""

SOURCES["specs/Answer.antt"] = """-- What a page learns from a call.
use Rattle.std.specs.Prelude.{◌≡◌, ◌<◌, ◌≤◌, ◌⊎◌, ℕ, List, [], length, take, Some}
use Rattle.capture_stream.specs.Progress.{input_limit, WritesAll, WritesSome}
use Rattle.capture_text.specs.Lines.{lines_of}
use Rattle.command_line.specs.declared.words.LineCommand.{LineCommand}
use Rattle.line_commands.specs.LineCommand.{AreTextsOf}

-- So many bytes at the front of the room are a front of the text that a command writes for the first lines of a capture. By the status of the program
-- they are the whole text (0), or the room is full (4), or the capture has more bytes than an input may have (8).
pub record Answers (command : LineCommand) (capture room : List ℕ) (count status : ℕ) : Type 0 where
  pub counted : count ≤ length room
  pub front : WritesSome (AreTextsOf command) (Some []) (Some (take count room)) (lines_of capture)
  pub whole : status ≡ 0 → WritesAll (AreTextsOf command) (Some []) (Some (take count room)) (lines_of capture)
  pub full : status ≡ 4 → count ≡ length room
  pub too_long : status ≡ 8 → input_limit < length capture
  pub known : (status ≡ 0) ⊎ ((status ≡ 4) ⊎ (status ≡ 8))
"""

SOURCES["proofs/Lib.antt"] = """mod AnswerLemmas
"""

SOURCES["proofs/AnswerLemmas.antt"] = """-- What a page learns, from what is said of a command over a source and a sink.
use Rattle.std.proofs.Common.{◌≡◌, ℕ, zero, suc, ◌<◌, ◌≤◌, ◌⊎◌, inl, inr, Bool, true, false, cond, List, [], ◌∷◌, ◌++◌, length, map, take, refl, sym, ap, subst, ◌∙◌, arith}
use Rattle.std.specs.Prelude.{Option, Some, None}
use Rattle.std.specs.List.{slice_split, onto_first}
use Rattle.std.proofs.lemmas.List.{append-nil, length-append, map-append}
use Rattle.std.proofs.lemmas.List.Splits.{length-slice_split}
use Rattle.gate_outside.specs.Faults.{Rose}
use Rattle.gate_outside.specs.Told.{Leaves}
use Rattle.capture_text.specs.Lines.{is_lf, without_cr, front, lines_of, complete_lines}
use Rattle.capture_stream.specs.Progress.{AreAll, WritesAll, WritesSome, Finishes, StopsWriting, PassesLimit}
use Rattle.command_line.specs.declared.words.LineCommand.{LineCommand}
use Rattle.line_commands.specs.LineCommand.{AreTextsOf}
use Rattle.command_line.specs.Statuses.{EndsBy, IsStreamStatus}
use Rattle.shipgate_page.specs.Answer.{Answers}

-- ---- the complete lines of what was read are the first of all

abbrev Fronts : List (List ℕ) → List (List ℕ) → Type 0
Fronts parts all = (more : List (List ℕ)) × (all ≡ parts ++ more)

front_step : (b : ℕ) (ends : Bool) (parts all : List (List ℕ)) → 0 < length parts → Fronts (front parts) all
    → Fronts (front (cond ends ([] ∷ parts) (onto_first b parts))) (cond ends ([] ∷ all) (onto_first b all))
front_step b ends [] all some h = absurd (omega arith)
front_step b true (p ∷ ps) all some h = (h.0, ap (λ (xs : List (List ℕ)). [] ∷ xs) h.1)
front_step b false (p ∷ []) all some h = (onto_first b all, refl)
front_step b false (p ∷ q ∷ ps) all some h = (h.0, ap (λ (xs : List (List ℕ)). onto_first b xs) h.1)

parts_front : (read rest : List ℕ) → Fronts (front (slice_split is_lf read)) (slice_split is_lf (read ++ rest))
parts_front [] rest = (slice_split is_lf rest, refl)
parts_front (b ∷ read) rest =
    front_step b (is_lf b) (slice_split is_lf read) (slice_split is_lf (read ++ rest)) (omega (arith, length-slice_split is_lf read)) (parts_front read rest)

lines_front : (read rest : List ℕ) → Fronts (complete_lines read) (lines_of (read ++ rest))
lines_front read rest =
    let p = parts_front read rest in
    (map without_cr p.0, ap (λ (ps : List (List ℕ)). map without_cr ps) p.1 ∙ map-append without_cr (front (slice_split is_lf read)) p.0)

first_of_more : (n : ℕ) (lines more : List (List ℕ)) → (k : ℕ) × (take n lines ≡ take k (lines ++ more))
first_of_more zero lines more = (0, refl)
first_of_more (suc n) [] more = (0, refl)
first_of_more (suc n) (line ∷ lines) more = let t = first_of_more n lines more in (suc t.0, ap (λ (ls : List (List ℕ)). line ∷ ls) t.1)

some_of_more : (IsText : List (List ℕ) → List ℕ → Type 0) (told told' : Option (List ℕ)) (lines all : List (List ℕ)) → Fronts lines all
    → WritesSome IsText told told' lines → WritesSome IsText told told' all
some_of_more IsText told told' lines all f w =
    let t = first_of_more w.count lines f.0 in
    let same : take w.count lines ≡ take t.0 all = t.1 ∙ ap (λ (ls : List (List ℕ)). take t.0 ls) (sym f.1) in
    record {
      written = w.written;
      joins = w.joins;
      count = t.0;
      text = w.text;
      is_text = subst (λ (ls : List (List ℕ)). IsText ls w.text) same w.is_text;
      unwritten = w.unwritten;
      front = w.front;
    }

some_of_complete : (IsText : List (List ℕ) → List ℕ → Type 0) (told told' : Option (List ℕ)) (capture read rest : List ℕ) → capture ≡ read ++ rest
    → WritesSome IsText told told' (complete_lines read) → WritesSome IsText told told' (lines_of capture)
some_of_complete IsText told told' capture read rest whole w =
    let s = some_of_more IsText told told' (complete_lines read) (lines_of (read ++ rest)) (lines_front read rest) w in
    subst (λ (bytes : List ℕ). WritesSome IsText told told' (lines_of bytes)) (sym whole) s

take_all : (lines : List (List ℕ)) → take (length lines) lines ≡ lines
take_all [] = refl
take_all (line ∷ lines) = ap (λ (ls : List (List ℕ)). line ∷ ls) (take_all lines)

some_of_all : (IsText : List (List ℕ) → List ℕ → Type 0) (told told' : Option (List ℕ)) (lines : List (List ℕ)) → WritesAll IsText told told' lines → WritesSome IsText told told' lines
some_of_all IsText told told' lines w = record {
  written = w.text;
  joins = w.joins;
  count = length lines;
  text = w.text;
  is_text = subst (λ (ls : List (List ℕ)). IsText ls w.text) (sym (take_all lines)) w.is_text;
  unwritten = [];
  front = append-nil w.text;
}

-- what was read of a capture leaves some of it
rest_of : (capture read : List ℕ) (left : Option (List ℕ)) → Leaves (Some capture) left read → (rest : List ℕ) × (capture ≡ read ++ rest)
rest_of capture read None leaves = absurd leaves
rest_of capture read (Some rest) leaves = (rest, leaves)

-- ---- the room that was filled is the one that was given: its name comes first

abbrev named : ℕ → List ℕ → Option (List ℕ)
named name bytes = Some (name ∷ bytes)

first_is : (a b : ℕ) (xs ys : List ℕ) → a ∷ xs ≡ b ∷ ys → a ≡ b
first_is a b xs ys e = cc

others_are : (a b : ℕ) (xs ys : List ℕ) → a ∷ xs ≡ b ∷ ys → xs ≡ ys
others_are a b xs ys e = cc

-- The room that was filled has the name of the one that was given.
record Filled (IsFilled : Option (List ℕ) → Option (List ℕ) → Type 0) (given name : ℕ) (bytes : List ℕ) : Type 0 where
  pub same : given ≡ name
  pub fills : IsFilled (Some []) (Some bytes)

all_filled : (IsText : List (List ℕ) → List ℕ → Type 0) (given name : ℕ) (bytes : List ℕ) (lines : List (List ℕ)) → WritesAll IsText (named given []) (named name bytes) lines
    → Filled (λ told told'. WritesAll IsText told told' lines) given name bytes
all_filled IsText given name bytes lines w = record {
  same = sym (first_is name given bytes w.text w.joins);
  fills = record { text = w.text; is_text = w.is_text; joins = others_are name given bytes w.text w.joins };
}

some_filled : (IsText : List (List ℕ) → List ℕ → Type 0) (given name : ℕ) (bytes : List ℕ) (lines : List (List ℕ)) → WritesSome IsText (named given []) (named name bytes) lines
    → Filled (λ told told'. WritesSome IsText told told' lines) given name bytes
some_filled IsText given name bytes lines w = record {
  same = sym (first_is name given bytes w.written w.joins);
  fills = record { written = w.written; joins = others_are name given bytes w.written w.joins; count = w.count; text = w.text; is_text = w.is_text; unwritten = w.unwritten; front = w.front };
}

-- ---- by the status

module _ (command : LineCommand) (capture room bytes : List ℕ) (given name count faults : ℕ) (left : Option (List ℕ))
    (within : count ≤ length bytes) (full : 0 < faults → count ≡ length bytes) (is_room : given ≡ name → room ≡ bytes) where
  abbrev Writes : Type 0
  Writes = WritesSome (AreTextsOf command) (named given []) (named name (take count bytes)) (lines_of capture)

  -- all that is said of the room but of the status
  record Front : Type 0 where
    pub is : room ≡ bytes
    pub counted : count ≤ length room
    pub front : WritesSome (AreTextsOf command) (Some []) (Some (take count room)) (lines_of capture)

  front_of : Writes → Front
  front_of w =
      let f = some_filled (AreTextsOf command) given name (take count bytes) (lines_of capture) w in
      let is = is_room f.same in
      record {
        is = is;
        counted = subst (λ (xs : List ℕ). count ≤ length xs) (sym is) within;
        front = subst (λ (xs : List ℕ). WritesSome (AreTextsOf command) (Some []) (Some (take count xs)) (lines_of capture)) (sym is) f.fills;
      }

  done : Finishes (AreTextsOf command) (Some capture) left (named given []) (named name (take count bytes)) → Answers command capture room count 0
  done e =
      let all : WritesAll (AreTextsOf command) (named given []) (named name (take count bytes)) (lines_of capture) =
      subst (λ (xs : List ℕ). WritesAll (AreTextsOf command) (named given []) (named name (take count bytes)) (lines_of xs)) (e.all capture refl) e.writes in
      let f = front_of (some_of_all (AreTextsOf command) (named given []) (named name (take count bytes)) (lines_of capture) all) in
      let whole = (all_filled (AreTextsOf command) given name (take count bytes) (lines_of capture) all).fills in
      record {
        counted = f.counted;
        front = f.front;
        whole = λ _. subst (λ (xs : List ℕ). WritesAll (AreTextsOf command) (Some []) (Some (take count xs)) (lines_of capture)) (sym f.is) whole;
        full = λ e. absurd cc;
        too_long = λ e. absurd cc;
        known = inl refl;
      }

  some_read : (read : List ℕ) → Leaves (Some capture) left read → WritesSome (AreTextsOf command) (named given []) (named name (take count bytes)) (complete_lines read) → Writes
  some_read read leaves w =
      let r = rest_of capture read left leaves in
      some_of_complete (AreTextsOf command) (named given []) (named name (take count bytes)) capture read r.0 r.1 w

  stopped : (read : List ℕ) → Leaves (Some capture) left read
      → WritesSome (AreTextsOf command) (named given []) (named name (take count bytes)) (complete_lines read)
      ⊎ (AreAll (Some capture) read × WritesSome (AreTextsOf command) (named given []) (named name (take count bytes)) (lines_of read)) → Writes
  stopped read leaves (inl w) = some_read read leaves w
  stopped read leaves (inr w) = subst (λ (xs : List ℕ). WritesSome (AreTextsOf command) (named given []) (named name (take count bytes)) (lines_of xs)) (w.0 capture refl) w.1

  filled : StopsWriting (AreTextsOf command) (Some capture) left (named given []) (named name (take count bytes)) → Rose 0 faults → Answers command capture room count 4
  filled e rose =
      let f = front_of (stopped e.read e.leaves e.writes) in
      let some : 0 < faults = elim rose [ inl more ↦ more | inr last ↦ omega (arith, last) ] in
      record {
        counted = f.counted;
        front = f.front;
        whole = λ e. absurd cc;
        full = λ _. subst (λ (xs : List ℕ). count ≡ length xs) (sym f.is) (full some);
        too_long = λ e. absurd cc;
        known = inr (inl refl);
      }

  too_long : PassesLimit (AreTextsOf command) (Some capture) left (named given []) (named name (take count bytes)) → Answers command capture room count 8
  too_long e =
      let f = front_of (some_read e.read e.leaves e.writes) in
      let r = rest_of capture e.read left e.leaves in
      record {
        counted = f.counted;
        front = f.front;
        whole = λ e. absurd cc;
        full = λ e. absurd cc;
        too_long = λ _. omega (arith, e.beyond, ap length r.1, length-append e.read r.0);
        known = inr (inr refl);
      }

  by_status : (status : ℕ) → IsStreamStatus status → EndsBy (AreTextsOf command) (Some capture) left (named given []) (named name (take count bytes)) status
      → (status ≡ 4 → Rose 0 faults) → (status ≡ 5 → Rose 0 0) → Answers command capture room count status
  by_status status (inl e) ends sink source = subst (λ (s : ℕ). Answers command capture room count s) (sym e) (done (ends.done e))
  by_status status (inr (inl e)) ends sink source = subst (λ (s : ℕ). Answers command capture room count s) (sym e) (filled (ends.sink_failed e) (sink e))
  by_status status (inr (inr (inl e))) ends sink source = elim (source e) [ inl more ↦ absurd (omega arith) | inr last ↦ absurd cc ]
  by_status status (inr (inr (inr e))) ends sink source = subst (λ (s : ℕ). Answers command capture room count s) (sym e) (too_long (ends.too_long e))

-- The capture is the one that was given, of a room nothing is filled at first, and the answer is the number of the status.
pub answers_by_status : (command : LineCommand) (capture held room bytes before : List ℕ) (given name first count none faults status answer : ℕ) (left : Option (List ℕ))
    → held ≡ capture → first ≡ 0 → none ≡ 0 → answer ≡ status → count ≤ length bytes → (0 < faults → count ≡ length bytes) → (given ≡ name → room ≡ bytes)
    → IsStreamStatus status → EndsBy (AreTextsOf command) (Some held) left (named given (take first before)) (named name (take count bytes)) status
    → (status ≡ 4 → Rose none faults) → (status ≡ 5 → Rose 0 0) → Answers command capture room count answer
answers_by_status command capture held room bytes before given name first count none faults status answer left is_capture is_empty is_none is_status within full is_room known ends sink source =
    let empty : take first before ≡ [] = rw is_empty refl in
    let ends_from : EndsBy (AreTextsOf command) (Some capture) left (named given (take first before)) (named name (take count bytes)) status =
    subst (λ (xs : List ℕ). EndsBy (AreTextsOf command) (Some xs) left (named given (take first before)) (named name (take count bytes)) status) is_capture ends in
    let ends_empty : EndsBy (AreTextsOf command) (Some capture) left (named given []) (named name (take count bytes)) status =
    subst (λ (xs : List ℕ). EndsBy (AreTextsOf command) (Some capture) left (named given xs) (named name (take count bytes)) status) empty ends_from in
    let rose : status ≡ 4 → Rose 0 faults = λ e. subst (λ (n : ℕ). Rose n faults) is_none (sink e) in
    let answers = by_status command capture room bytes given name count faults left within full is_room status known ends_empty rose source in
    subst (λ (s : ℕ). Answers command capture room count s) (sym is_status) answers
"""

SOURCES["proofs/answer/Answers.antt"] = """-- The room that was filled is the one that was given, since what the sink tells begins with its name.
use Rattle.std.proofs.Common.{rules}
use Rattle.shipgate_page.proofs.AnswerLemmas.{answers_by_status}
use Rattle.shipgate_page.proofs.answer.Goals as goal

pub returns : goal.returns
returns c =
    let said = c.answer_lines-status in
    let room = c.new-sink.result in
    answers_by_status c.args.command c.args.capture.now c.new-source.result.bytes.now _ said.new.out.bytes.now room.bytes.now room.bytes.ghost_name
    said.new.out.bytes.ghost_name room.count said.new.out.count room.faults said.new.out.faults _ c.number.result _ c.new-source.ensures c.new-sink.ensures.empty
    c.new-sink.ensures.no_fault c.number.ensures.number said.new.out.within said.new.out.full (search rules) said.ensures.status said.ensures.ends said.ensures.sink_cause
    said.ensures.source_cause
"""
