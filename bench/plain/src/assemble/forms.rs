//! The parts of an operand field, as they are written: names, numbers, registers and the forms made of them.

pub type Name = [u8; 5];

#[derive(Clone, Copy, PartialEq, Eq, Debug)]
pub enum Term {
    Number(u64),
    Name(Name),
}

#[derive(Clone, Copy, PartialEq, Eq, Debug)]
pub enum Form {
    None,
    Omitted,
    Star,
    Plain(Term),
    Register(u32),
    Literal(Name),
    Multiple(Name),
    Indirect(u32),
    Rising(u32),
    Falling(u32),
    Type(u8),
    Indexed(Term, u32),
    Combined(Term, bool, Term),
    Signed(bool, u64),
    /// Whether it has a minus, the number of all its digits, and how many stand behind the point.
    Decimal(bool, u64, u32),
}

pub fn name(s: &[u8]) -> Option<Name> {
    let n: Name = s.try_into().ok()?;
    let later = |b: &u8| b.is_ascii_uppercase() || b.is_ascii_digit() || *b == b'$';
    (n[0].is_ascii_uppercase() && n[1..].iter().all(later)).then_some(n)
}

fn number(s: &[u8]) -> Option<u64> {
    if s.is_empty() || !s.iter().all(u8::is_ascii_digit) {
        return None;
    }
    Some(s.iter().fold(0u64, |n, b| (n * 10 + (b - b'0') as u64).min(1 << 40)))
}

fn register(s: &[u8]) -> Option<u32> {
    Some(match s {
        b"XL" | b"XT" => 1,
        b"XR" => 2,
        b"XS" => 3,
        b"WA" => 4,
        b"WB" => 5,
        b"WC" => 6,
        _ => return None,
    })
}

fn term(s: &[u8]) -> Option<Term> {
    name(s).map(Term::Name).or(number(s).map(Term::Number))
}

/// `(X)`.
fn bracket(s: &[u8]) -> Option<u32> {
    match s {
        [b'(', a, b, b')'] => register(&[*a, *b]).filter(|r| *r <= 3),
        _ => None,
    }
}

/// The form of a DRC's operand: an optional sign, one to nine digits, a point, and up to six digits.
pub fn decimal(s: &[u8]) -> Form {
    let (minus, rest) = match s {
        [b'-', rest @ ..] => (true, rest),
        [b'+', rest @ ..] => (false, rest),
        _ => (false, s),
    };
    let Some(point) = rest.iter().position(|b| *b == b'.') else {
        return Form::None;
    };
    let (before, behind) = (&rest[..point], &rest[point + 1..]);
    if before.is_empty() || before.len() > 9 || behind.len() > 6 {
        return Form::None;
    }
    let digits = [before, behind].concat();
    if !digits.iter().all(u8::is_ascii_digit) {
        return Form::None;
    }
    let number = digits.iter().fold(0, |n, b| 10 * n + (b - b'0') as u64);
    Form::Decimal(minus, number, behind.len() as u32)
}

/// The form of any other card's operand.
pub fn form(s: &[u8]) -> Form {
    if let Some(t) = term(s) {
        return Form::Plain(t);
    }
    if let Some(r) = register(s) {
        return Form::Register(r);
    }
    let made = match s {
        b"." => Some(Form::Omitted),
        b"*" => Some(Form::Star),
        b"R" | b"N" | b"E" => Some(Form::Type(s[0])),
        [] | [_] => None,
        [b'=', rest @ ..] => name(rest).map(Form::Literal),
        [b'*', rest @ ..] => name(rest).map(Form::Multiple),
        [b'(', .., b'+'] => bracket(&s[..s.len() - 1]).map(Form::Rising),
        [b'(', ..] => bracket(s).map(Form::Indirect),
        [b'-', rest @ ..] => number(rest).map(|n| Form::Signed(true, n)).or(bracket(rest).map(Form::Falling)),
        [b'+', rest @ ..] => number(rest).map(|n| Form::Signed(false, n)),
        _ => {
            if let Some(i) = s.iter().position(|b| *b == b'(') {
                bracket(&s[i..]).and_then(|r| term(&s[..i]).map(|t| Form::Indexed(t, r)))
            } else if let Some(i) = s.iter().position(|b| *b == b'+' || *b == b'-') {
                term(&s[..i]).and_then(|a| term(&s[i + 1..]).map(|b| Form::Combined(a, s[i] == b'+', b)))
            } else {
                None
            }
        }
    };
    made.unwrap_or(Form::None)
}
