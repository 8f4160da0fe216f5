//! claims SPECS: reads the cases that the second implementation writes, and writes them as claims about the definitions of the folder
//! SPECS, each to be proved by computation. A case that the definitions answer otherwise is refused by its line number.

use std::fmt::Write as _;
use std::io::{self, BufRead, Write};
use std::path::PathBuf;
use std::{env, fs};

/// The files of the definitions that have to compute.
const FILES: [&str; 14] = [
    "Limits", "Logic", "Table", "State", "WakeSet", "Records", "Requests", "Steps", "SoundTest", "Feed", "Questions", "Methods", "Demand3", "Writing",
];

/// The definitions of a file that unfold only where they are named: a claim brings them in and unfolds them.
fn definitions(text: &str) -> Vec<&str> {
    text.lines().filter_map(|line| line.strip_prefix("unfoldable pub ")?.split(' ').next()).collect()
}

/// How many words a state has.
const STATE_WORDS: usize = 18;

fn list(numbers: &[u64]) -> String {
    let mut text = String::from("(");
    for number in numbers {
        write!(text, "{number} ∷ ").expect("a string takes it");
    }
    text + "[])"
}

/// A number of zeros, or the bytes.
fn piece(text: &str) -> String {
    match text.strip_prefix("0*") {
        Some(count) => format!("(pad {count} [])"),
        None => list(&bytes(text)),
    }
}

/// An answer to a question.
fn told(text: &str) -> String {
    let (number, value) = text.split_once(':').expect("a number and a value");
    format!("record {{ number = {number}; value = {value} }}")
}

fn bytes(hex: &str) -> Vec<u64> {
    if hex == "-" {
        return Vec::new();
    }
    (0..hex.len()).step_by(2).map(|at| u64::from_str_radix(&hex[at..at + 2], 16).expect("hex")).collect()
}

/// The value of the word `name=value`.
fn field<'a>(words: &[&'a str], name: &str) -> &'a str {
    words.iter().find_map(|word| word.strip_prefix(name)?.strip_prefix('=')).expect("a state has every field")
}

fn numbers(text: &str) -> Vec<u64> {
    text.split(',').map(|number| number.parse().expect("a number")).collect()
}

/// A state as a call of the helper `bench`.
fn state(words: &[&str]) -> String {
    let columns = ["parent", "ignore", "status", "holds", "depth", "error", "children", "linked", "consumer", "supplier", "flags"];
    let mut text = format!("(bench {} {}", field(words, "n"), field(words, "m"));
    for column in columns {
        write!(text, " {}", list(&numbers(field(words, column)))).expect("a string takes it");
    }
    let scalars = [field(words, "callback"), field(words, "asked"), field(words, "target")].join(" ");
    format!("{text} {scalars} {} {})", list(&numbers(field(words, "carried"))), field(words, "count"))
}

/// What a case says, in the words of the definitions.
fn claim(line: &str) -> String {
    let words: Vec<&str> = line.split(' ').collect();
    let after = |start: &str, log: &str, replies: &str, end: &[&str]| {
        format!("outcome (run {start} {}) ≡ ({}, {})", list(&bytes(log)), list(&bytes(replies)), state(end))
    };
    match words[0] {
        "load" => {
            let table = list(&bytes(words[1]));
            format!("(load_of {table}).answer ≡ record {{ number = {}; index = {} }}", words[2], words[3])
        }
        "run" => {
            let end = &words[5..];
            let (start, log) = (list(&bytes(words[1])), list(&bytes(words[2])));
            let (replies, counts) = (list(&bytes(words[3])), list(&numbers(words[4])));
            format!("played {} (run (load_of {start}).state {log}) ≡ ({replies}, {counts}, {})", field(end, "n"), state(end))
        }
        "from" => after(&state(&words[1..=STATE_WORDS]), words[STATE_WORDS + 1], words[STATE_WORDS + 2], &words[STATE_WORDS + 3..]),
        "sound" => {
            let verdict = if words[STATE_WORDS + 1] == "1" { "true" } else { "false" };
            format!("sound_test {} ≡ {verdict}", state(&words[1..=STATE_WORDS]))
        }
        "feed" => {
            let [bytes_in, buffer, number, replies, left] = words[STATE_WORDS + 1..STATE_WORDS + 6] else { panic!("a piece") };
            let piece = format!("record {{ bytes = {}; buffer = {} }}", piece(bytes_in), list(&bytes(buffer)));
            let fed = format!("number = {number}; replies = {replies}; state = {}; buffer = {}", state(&words[STATE_WORDS + 6..]), list(&bytes(left)));
            format!("feed_of {} ({piece}) ≡ record {{ {fed} }}", state(&words[1..=STATE_WORDS]))
        }
        "ask" => {
            let [device, other] = words[STATE_WORDS + 1..STATE_WORDS + 3] else { panic!("two devices") };
            let answers: Vec<String> = words[STATE_WORDS + 3..].iter().map(|answer| told(answer)).collect();
            format!("asked {} {device} {other} ≡ ({} ∷ [])", state(&words[1..=STATE_WORDS]), answers.join(" ∷ "))
        }
        "request" => {
            let [record, number, reply] = words[STATE_WORDS + 1..STATE_WORDS + 4] else { panic!("a record") };
            let four = |last: &str, hex: &str| match bytes(hex)[..] {
                [kind, device, low, high] => format!("record {{ kind = {kind}; device = {device}; {last} = {} }}", low + 256 * high),
                _ => panic!("four bytes"),
            };
            let requested = format!("number = {number}; reply = {}; state = {}", four("code", reply), state(&words[STATE_WORDS + 4..]));
            format!("requested {} ({}) ≡ record {{ {requested} }}", state(&words[1..=STATE_WORDS]), four("value", record))
        }
        "write" => {
            let [devices, links, buffer, number, index, left] = words[1..] else { panic!("two lists") };
            let (devices, links, buffer) = (list(&bytes(devices)), list(&bytes(links)), list(&bytes(buffer)));
            let writing = format!("answer = record {{ number = {number}; index = {index} }}; buffer = {}", list(&bytes(left)));
            format!("write_of {devices} {links} {buffer} ≡ record {{ {writing} }}")
        }
        other => panic!("no such case: {other}"),
    }
}

fn header(texts: &[(&str, String)]) -> String {
    let mut text = String::from(concat!(
        "-- Cases of the second implementation, as claims about the definitions. Assumes nothing.\n",
        "use mathlib.Core.Path.{◌≡◌, refl}\n",
        "use Rattle.std.specs.Prelude.{true, false, List, [], ◌∷◌, ℕ, zero, suc}\n",
        "use Rattle.model.specs.State.{State}\n",
        "use Rattle.model.specs.Steps.{Exchange, Run}\n",
        "use Rattle.model.specs.Questions.{Told, tell_status, tell_holds, tell_usage, tell_children, tell_wake, tell_above}\n",
        "use Rattle.model.specs.Demand3.{is_get, is_put}\n",
    ));
    for (file, definition) in texts {
        let names = definitions(definition).join(", ");
        writeln!(text, "use Rattle.model.specs.{file}.{{{names}}}").expect("a string takes it");
    }
    text + concat!(
        "\npad : ℕ → List ℕ → List ℕ\npad zero l = []\npad (suc n) [] = 0 ∷ pad n []\npad (suc n) (a ∷ l) = a ∷ pad n l\n",
        "\nbench : ℕ → ℕ → List ℕ → List ℕ → List ℕ → List ℕ → List ℕ → List ℕ → List ℕ → List ℕ → List ℕ → List ℕ → List ℕ → ℕ → ℕ → ℕ → List ℕ → ℕ → State\n",
        "bench n m pa ig st ho de er ch li co su fl k a t b u =\n",
        "    record {\n",
        "      wiring = record { n = n; m = m; parent = pad ROWS pa; ignore = pad ROWS ig; consumer = pad LINKS co; supplier = pad LINKS su; flags = pad LINKS fl };\n",
        "      devices = record { status = pad ROWS st; holds = pad ROWS ho; depth = pad ROWS de; error = pad ROWS er; children = pad ROWS ch; linked = pad ROWS li };\n",
        "      callback = record { kind = k; asked = a; target = t };\n",
        "      carry = record { bytes = b; used = u };\n",
        "    }\n",
        "\noutcome : Run → List ℕ × State\noutcome r = (replies_in r.log, r.state)\n",
        "\ncounts : ℕ → ℕ → List Exchange → List ℕ\ncounts zero q log = []\ncounts (suc k) q log = counted is_get q log ∷ counted is_put q log ∷ counts k (suc q) log\n",
        "\nplayed : ℕ → Run → List ℕ × List ℕ × State\nplayed n r = (replies_in r.log, counts n 0 r.log, r.state)\n",
        "\nasked : State → ℕ → ℕ → List Told\nasked s p q = tell_status s p ∷ tell_holds s p ∷ tell_usage s p ∷ tell_children s p ∷ tell_above s p ∷ tell_wake s p q ∷ []\n",
    )
}

fn main() -> io::Result<()> {
    let folder = PathBuf::from(env::args_os().nth(1).expect("usage: claims SPECS"));
    let mut texts = Vec::new();
    for file in FILES {
        texts.push((file, fs::read_to_string(folder.join(file).with_extension("antt"))?));
    }
    let unfolding: Vec<&str> = texts.iter().flat_map(|(_, text)| definitions(text)).collect();
    let unfolding = format!("unfolding pad bench outcome counts played asked {}", unfolding.join(" "));
    let mut out = io::BufWriter::new(io::stdout().lock());
    out.write_all(header(&texts).as_bytes())?;
    for (at, line) in io::stdin().lock().lines().enumerate() {
        let at = at + 1;
        write!(out, "\nline-{at} : {}\n{unfolding}\nline-{at} = refl\n", claim(&line?))?;
    }
    out.flush()
}
