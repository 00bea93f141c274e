//! Equates: their expressions and the rounds that find their values.

use std::collections::HashMap;

use super::lines::{Equate, Place};
use super::marks::mark;
use super::text::magnitude;
use super::Refusal;

#[derive(Clone, Copy)]
enum Token<'a> {
    Plus,
    Minus,
    Dot,
    Number(i64),
    Name(&'a [u8]),
}

/// What an evaluation comes to.
enum Evaluated {
    Value(i64),
    /// A name has no value yet.
    Waits,
    Refused(u8),
}

/// The values found by name, and the evaluations; the equates get their values
/// and rounds.
pub fn resolve<'a>(
    equates: &mut [Equate<'a>],
    labels: &HashMap<&[u8], u32>,
    address: &dyn Fn(Place) -> u32,
) -> Result<(HashMap<&'a [u8], i64>, u64), Refusal> {
    let mut values = HashMap::new();
    let mut evaluations = 0;
    let mut round = 0;
    loop {
        let first_pending = equates.iter().position(|equate| equate.round == 0);
        let Some(first) = first_pending else {
            match round {
                0 => mark!(NoEquates),
                1 => mark!(OneRound),
                _ => mark!(MoreRounds),
            }
            return Ok((values, evaluations));
        };
        round += 1;
        let before = values.len();
        for equate in equates.iter_mut().filter(|equate| equate.round == 0) {
            let refused = |number| Err(Refusal::new(number, equate.line));
            if labels.contains_key(equate.name.bytes) {
                mark!(EquateIsLabel);
                return refused(14);
            }
            if values.contains_key(equate.name.bytes) {
                mark!(EquateAgain);
                return refused(15);
            }
            evaluations += 1;
            let dot = i64::from(address(equate.place));
            match evaluate(&equate.expression, dot, labels, &values) {
                Evaluated::Value(value) => {
                    mark!(EquateFound);
                    equate.value = value;
                    equate.round = round;
                    values.insert(equate.name.bytes, value);
                }
                Evaluated::Waits => mark!(EquateWaits),
                Evaluated::Refused(number) => return refused(number),
            }
        }
        if values.len() == before {
            mark!(Unresolved);
            if round > 1 {
                mark!(UnresolvedLater);
            }
            return Err(Refusal::new(17, equates[first].line));
        }
    }
}

/// The tokens; none if one is unreadable.
fn tokens(expression: &[u8]) -> Option<Vec<Token<'_>>> {
    let is_in_name = |b: &u8| b.is_ascii_alphanumeric() || matches!(b, b'_' | b'.' | b'$');
    let is_in_number = |b: &u8| b.is_ascii_hexdigit() || matches!(b, b'x' | b'X');
    let run = |from: usize, is_in: &dyn Fn(&u8) -> bool| {
        let length = expression[from..].iter().take_while(|b| is_in(b)).count();
        &expression[from..from + length]
    };
    let mut found = Vec::new();
    let mut at = 0;
    while at < expression.len() {
        let mut length = 1;
        match expression[at] {
            b',' => mark!(TokenComma),
            9 | 10 | 13 | 32 => mark!(TokenBlank),
            b'+' => found.push(Token::Plus),
            b'-' => found.push(Token::Minus),
            b'0'..=b'9' => {
                let digits = run(at, &is_in_number);
                found.push(Token::Number(unsigned(digits)?));
                length = digits.len();
            }
            b'.' | b'_' | b'$' | b'a'..=b'z' | b'A'..=b'Z' => {
                let name = run(at, &is_in_name);
                found.push(match name {
                    b"." => {
                        mark!(TokenDot);
                        Token::Dot
                    }
                    _ => {
                        mark!(TokenName);
                        Token::Name(name)
                    }
                });
                length = name.len();
            }
            11 | 12 => {
                mark!(TokenElevenTwelve);
                return None;
            }
            _ => {
                mark!(TokenUnreadable);
                return None;
            }
        }
        at += length;
    }
    Some(found)
}

/// A number's token, which has no sign.
fn unsigned(token: &[u8]) -> Option<i64> {
    let (radix, digits) = match token {
        [b'0', b'x' | b'X', rest @ ..] => {
            mark!(TokenHexadecimal);
            (16, rest)
        }
        [b'0', b'b' | b'B', rest @ ..] => {
            mark!(TokenBinary);
            (2, rest)
        }
        _ => {
            mark!(TokenDecimal);
            (10, token)
        }
    };
    let value = magnitude(digits, radix).and_then(|value| i64::try_from(value).ok());
    if value.is_none() {
        mark!(TokenNumberBad);
    }
    value
}

fn evaluate(
    expression: &[u8],
    dot: i64,
    labels: &HashMap<&[u8], u32>,
    values: &HashMap<&[u8], i64>,
) -> Evaluated {
    let Some(tokens) = tokens(expression) else {
        return Evaluated::Refused(16);
    };
    let fit = |value: i128| i64::try_from(value).ok();
    let mut sum = 0i64;
    let mut at = 0;
    let mut is_first = true;
    // An expression without any term is refused by the first turn.
    while is_first || at < tokens.len() {
        let mut operator = 1i128;
        if !is_first {
            operator = match tokens[at] {
                Token::Plus => {
                    mark!(JoinPlus);
                    1
                }
                Token::Minus => {
                    mark!(JoinMinus);
                    -1
                }
                _ => {
                    mark!(NoOperator);
                    return Evaluated::Refused(16);
                }
            };
            at += 1;
        }
        let mut sign = 1i128;
        while let Some(token @ (Token::Plus | Token::Minus)) = tokens.get(at) {
            match token {
                Token::Minus => {
                    mark!(SignMinus);
                    sign = -sign;
                }
                _ => mark!(SignPlus),
            }
            at += 1;
        }
        let term = match tokens.get(at) {
            Some(Token::Dot) => dot,
            Some(Token::Number(number)) => *number,
            Some(Token::Name(name)) => match (values.get(name), labels.get(name)) {
                (Some(value), _) => {
                    mark!(NameEquate);
                    *value
                }
                (None, Some(address)) => {
                    mark!(NameLabel);
                    i64::from(*address)
                }
                (None, None) => {
                    mark!(NameWaits);
                    return Evaluated::Waits;
                }
            },
            _ => {
                match tokens.is_empty() {
                    true => mark!(NoTerms),
                    false => mark!(NoTerm),
                }
                return Evaluated::Refused(16);
            }
        };
        at += 1;
        let Some(signed) = fit(sign * i128::from(term)) else {
            mark!(SignBeyond);
            return Evaluated::Refused(24);
        };
        let Some(joined) = fit(operator * i128::from(signed)) else {
            mark!(JoinBeyond);
            return Evaluated::Refused(24);
        };
        let Some(partial) = fit(i128::from(sum) + i128::from(joined)) else {
            mark!(SumBeyond);
            return Evaluated::Refused(24);
        };
        sum = partial;
        is_first = false;
    }
    Evaluated::Value(sum)
}
