//! Texts at the limits of document 01, from both sides, and those that ask most of a stack or of time.
use super::token::EDGE_LITERALS;
use super::Rng;

/// A limit: what is counted, the most that is accepted, and a text that has exactly so many.
pub struct Limit {
    pub what: &'static str,
    pub most: usize,
    pub text: fn(usize) -> String,
}

/// Besides what is nested, one construct more is open: the statement around it or inside it.
const MOST_NESTED: usize = 63;

pub const LIMITS: [Limit; 24] = [
    Limit { what: "bytes, blanks behind", most: 32_768, text: |n| padded("program p; begin write(1) end", ' ', "", n) },
    Limit {
        what: "bytes, blanks in front",
        most: 32_768,
        text: |n| padded("", '\n', "program p; begin write(1) end", n),
    },
    Limit { what: "bytes, a name", most: 32_768, text: |n| padded("program ", 'n', "; begin write(1) end", n) },
    Limit { what: "bytes, a literal", most: 32_768, text: |n| padded("program p; begin write(", '0', "1) end", n) },
    Limit {
        what: "brackets in an assignment",
        most: MOST_NESTED,
        text: |n| sheet(&format!("x:={}", brackets(n, "1"))),
    },
    Limit {
        what: "brackets in a condition",
        most: MOST_NESTED,
        text: |n| sheet(&format!("while {}<1 do x:=1", brackets(n, "1"))),
    },
    Limit { what: "brackets written", most: MOST_NESTED, text: |n| sheet(&format!("write({})", brackets(n, "1"))) },
    Limit { what: "brackets in an argument", most: MOST_NESTED, text: |n| called_with(&brackets(n, "1")) },
    Limit { what: "bodies", most: MOST_NESTED, text: |n| sheet(&nested("begin ", "x:=1", " end", n)) },
    Limit { what: "if, then", most: MOST_NESTED, text: |n| sheet(&nested("if x=0 then ", "x:=1", "", n)) },
    Limit { what: "if, else", most: MOST_NESTED, text: |n| sheet(&nested("if x=1 then x:=2 else ", "x:=1", "", n)) },
    Limit { what: "while", most: MOST_NESTED, text: |n| sheet(&nested("while x<3 do ", "x:=x+1", "", n)) },
    Limit { what: "statements and brackets", most: MOST_NESTED, text: mixed },
    Limit { what: "nested procedures", most: MOST_NESTED, text: nested_procedures },
    Limit { what: "later procedures", most: MOST_NESTED, text: later_procedures },
    Limit { what: "nested and later procedures", most: MOST_NESTED, text: nested_and_later },
    Limit { what: "tokens, brackets", most: 8_192, text: bracket_tokens },
    Limit { what: "rows, variables", most: 512, text: |n| format!("program p; var {}; begin v0:=1 end", names(n, "")) },
    Limit {
        what: "rows, constants",
        most: 512,
        text: |n| format!("program p; const {}; begin write(v1) end", names(n, ":=7")),
    },
    Limit { what: "rows, arguments", most: 512, text: |n| with_arguments(&names(n - 1, "")) },
    Limit { what: "rows, equal arguments", most: 512, text: |n| with_arguments(&format!("{}v0", "v0,".repeat(n - 2))) },
    Limit {
        what: "instructions, a chain",
        most: 4_096,
        text: |n| sheet(&format!("x:={}{}", odd_one(n + 1), "+1".repeat((n - 5) / 2))),
    },
    Limit {
        what: "instructions, assignments",
        most: 4_096,
        text: |n| sheet(&format!("x:={}{}", odd_one(n + 1), ";x:=2".repeat((n - 5) / 2))),
    },
    Limit {
        what: "instructions, numbers written",
        most: 4_096,
        text: |n| sheet(&format!("write({}{})", odd_one(n), ",2".repeat((n - 6) / 2))),
    },
];

/// Texts far over a limit, and those that reach two limits at one place.
const OTHERS: [fn() -> String; 5] = [
    || sheet(&format!("x:=1{}", "+1".repeat(8_200))),
    || sheet(&format!("x:=1{}", ";x:=1".repeat(4_000))),
    || format!("program p; var {}; begin x:=1 end", names(4_100, "")),
    || full_and_deep(64),
    || full_and_deep(63),
];

/// A text a little below, at or above a limit, at times with its last `end` missing or with more behind it; or one with a
/// literal at the ends of i64.
pub fn text(rng: &mut Rng) -> Vec<u8> {
    if rng.once_in(4) {
        let literal = *rng.pick(&EDGE_LITERALS);
        let places =
            [("x:=", ""), ("x:=-", "-1"), ("write(-", ")"), ("x:=1;", ""), ("if x=", " then x:=1"), ("x:=1 end ", "")];
        let (before, behind) = *rng.pick(&places);
        return sheet(&format!("{before}{literal}{behind}")).into_bytes();
    }
    if rng.once_in(12) {
        return rng.pick(&OTHERS)().into_bytes();
    }
    let limit = rng.pick(&LIMITS);
    let mut text = (limit.text)(limit.most - 2 + rng.below(5));
    match rng.below(12) {
        0 if text.ends_with("end") => text.truncate(text.len() - "end".len()),
        1 => text.push_str("; x := end"),
        _ => {}
    }
    text.into_bytes()
}

/// The texts with the most constructs open, accepted, of every kind.
pub fn deepest() -> Vec<String> {
    LIMITS.iter().filter(|limit| limit.most == MOST_NESTED).map(|limit| (limit.text)(limit.most)).collect()
}

/// The longest lists that are accepted, of every kind.
pub fn longest() -> Vec<String> {
    LIMITS.iter().filter(|limit| limit.most != MOST_NESTED).map(|limit| (limit.text)(limit.most)).collect()
}

fn sheet(statements: &str) -> String {
    format!("program p; var x; begin {statements} end")
}

fn nested(before: &str, inside: &str, after: &str, times: usize) -> String {
    format!("{}{inside}{}", before.repeat(times), after.repeat(times))
}

fn brackets(times: usize, inside: &str) -> String {
    nested("(", inside, ")", times)
}

fn padded(front: &str, with: char, back: &str, length: usize) -> String {
    let more = length - front.len() - back.len();
    format!("{front}{}{back}", String::from(with).repeat(more))
}

fn names(count: usize, value: &str) -> String {
    let names: Vec<String> = (0..count).map(|i| format!("v{i}{value}")).collect();
    names.join(",")
}

fn with_arguments(names: &str) -> String {
    format!("program p; procedure q({names}); begin v0:=1 end begin write(1) end")
}

fn called_with(exp: &str) -> String {
    format!("program p; procedure q(a); begin write(a) end begin call q({exp}) end")
}

/// A number that takes one instruction, two if n is odd.
fn odd_one(n: usize) -> &'static str {
    if n % 2 == 1 {
        "-1"
    } else {
        "1"
    }
}

/// Statements of every kind around each other, and brackets in the innermost.
fn mixed(n: usize) -> String {
    let kinds = [("begin ", " end"), ("if x=0 then ", ""), ("while x<9 do ", ""), ("if x=9 then x:=1 else ", "")];
    let statements = n / 2;
    let inside = format!("x:={}", brackets(n - statements, "9"));
    let around = |inside: String, i: usize| format!("{}{inside}{}", kinds[i % 4].0, kinds[i % 4].1);
    sheet(&(0..statements).fold(inside, around))
}

fn nested_procedures(n: usize) -> String {
    let heads: String = (0..n).map(|i| format!("procedure q{i}(a); ")).collect();
    let bodies: String = (1..n).rev().map(|i| format!("begin call q{i}(a) end ")).collect();
    format!("program p; var x; {heads}begin x:=x+a end {bodies}begin call q0(1); write(x) end")
}

fn later_procedures(n: usize) -> String {
    let all: Vec<String> = (0..n).map(|i| format!("procedure q{i}(a); begin x:=x+a end")).collect();
    format!("program p; var x; {} begin call q0(1); write(x) end", all.join(";"))
}

/// Half of the procedures nested, the others behind the innermost, in which a quiet branch leaves its `end`.
fn nested_and_later(n: usize) -> String {
    let half = n / 2;
    let heads: String = (0..half).map(|i| format!("procedure q{i}(); ")).collect();
    let later: String = (half..n).map(|i| format!(";procedure q{i}(); begin write({i}) end")).collect();
    let bodies = "begin write(1) end ".repeat(half - 1);
    format!("program p; {heads}begin if 1=1 then write(1) else begin write(2); end {later} {bodies}begin write(3) end")
}

/// n tokens in all: few instructions, since its numbers stand in many brackets.
fn bracket_tokens(n: usize) -> String {
    const AROUND: usize = 8; // program p ; begin write ( ) end
    format!("program p; begin write({}) end", exp_of_tokens(n - AROUND))
}

/// The statement place inside so many bodies is reached when 8,192 tokens were taken.
fn full_and_deep(bodies: usize) -> String {
    const AROUND: usize = 10; // program p ; var x ; begin x := ;
    let exp = exp_of_tokens(8_192 - AROUND - bodies);
    sheet(&format!("x:={exp}; {}", nested("begin ", "x:=1", " end", bodies)))
}

/// An expression of n tokens: a sum of numbers in brackets.
fn exp_of_tokens(n: usize) -> String {
    const DEPTH: usize = 60;
    const TERM: usize = 2 * DEPTH + 2; // a number, its brackets, and the `+` between it and the next
    let left = n + 1;
    let mut terms = vec![brackets(DEPTH, "1"); left / TERM];
    let (rest, sign) = (left % TERM, if left % TERM % 2 == 1 { "+" } else { "" });
    if rest > 1 {
        terms.push(brackets(rest / 2 - 1, "1"));
    }
    format!("{sign}{}", terms.join("+"))
}
