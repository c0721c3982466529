//! Other values where both have a key.

use crate::second::overlay::{laid_over, Rules, Value, CLASH, RULES};

fn is_leaf(value: &Value) -> bool {
    matches!(value, Value::Leaf(..))
}

/// Element by element, where both are arrays; what only one has is kept.
fn by_element<'a>(lower: Value<'a>, upper: Value<'a>) -> Result<Value<'a>, u32> {
    let (Value::Array(mut lower), Value::Array(upper)) = (lower.clone(), upper.clone()) else {
        return (RULES.others)(lower, upper);
    };
    for (i, element) in upper.into_iter().enumerate() {
        if i < lower.len() {
            lower[i] = element;
        } else {
            lower.push(element);
        }
    }
    Ok(Value::Array(lower))
}

/// Into arrays of one length, where objects of the same place are laid over each other.
fn into_arrays<'a>(lower: Value<'a>, upper: Value<'a>) -> Result<Value<'a>, u32> {
    let (Value::Array(lower), Value::Array(upper)) = (lower.clone(), upper.clone()) else {
        return (RULES.others)(lower, upper);
    };
    let element = |i: usize, over: Value<'a>| match (lower.get(i).cloned(), over) {
        (Some(Value::Object(lower)), Value::Object(upper)) => laid_over(&RULES, lower, upper).map(Value::Object),
        (_, over) => Ok(over),
    };
    let list: Result<_, _> = upper.into_iter().enumerate().map(|(i, over)| element(i, over)).collect();
    list.map(Value::Array)
}

/// The upper answers where `may` lets it, instead of a clash.
fn let_in<'a>(lower: Value<'a>, upper: Value<'a>, may: fn(&Value) -> bool) -> Result<Value<'a>, u32> {
    if lower.is_object() && may(&upper) || upper.is_object() && may(&lower) {
        return Ok(upper);
    }
    (RULES.others)(lower, upper)
}

fn is_empty(value: &Value) -> bool {
    matches!(value, Value::Object(pairs) if pairs.is_empty())
}

/// Other values where both have a key.
pub const VALUES: [(&str, Rules); 13] = [
    (
        "the lower's value is kept where both are scalars",
        Rules { others: |l, u| if is_leaf(&l) && is_leaf(&u) { Ok(l) } else { (RULES.others)(l, u) }, ..RULES },
    ),
    ("the lower's array is kept", Rules { others: |l, u| kept_array(l, u), ..RULES }),
    ("an array is laid over an array element by element", Rules { others: by_element, ..RULES }),
    ("objects in arrays are laid over each other", Rules { others: into_arrays, ..RULES }),
    ("null over an object is no clash", Rules { others: |l, u| null(l, u), ..RULES }),
    ("null and an object are no clash", Rules { others: |l, u| let_in(l, u, |v| *v == NULL), ..RULES }),
    ("an array and an object are no clash", Rules { others: |l, u| let_in(l, u, is_array), ..RULES }),
    ("a scalar and an object are no clash", Rules { others: |l, u| let_in(l, u, is_leaf), ..RULES }),
    (
        "`{}` clashes with nothing",
        Rules { others: |l, u| if is_empty(&l) || is_empty(&u) { Ok(u) } else { (RULES.others)(l, u) }, ..RULES },
    ),
    (
        "`{}` below a value that is no object is no clash",
        Rules { others: |l, u| if is_empty(&l) { Ok(u) } else { (RULES.others)(l, u) }, ..RULES },
    ),
    (
        "values of two kinds clash",
        Rules { others: |l, u| if kind(&l) == kind(&u) { (RULES.others)(l, u) } else { Err(CLASH) }, ..RULES },
    ),
    ("objects below the root are the upper's", Rules { objects: |_, _, u| Ok(Value::Object(u)), ..RULES }),
    (
        "an empty object empties the lower's",
        Rules {
            objects: |r, l, u| if u.is_empty() { Ok(Value::Object(u)) } else { (RULES.objects)(r, l, u) },
            ..RULES
        },
    ),
];

pub const NULL: Value = Value::Leaf(1, b"");

fn is_array(value: &Value) -> bool {
    matches!(value, Value::Array(_))
}

fn kept_array<'a>(lower: Value<'a>, upper: Value<'a>) -> Result<Value<'a>, u32> {
    if is_array(&lower) && is_array(&upper) {
        return Ok(lower);
    }
    (RULES.others)(lower, upper)
}

fn null<'a>(lower: Value<'a>, upper: Value<'a>) -> Result<Value<'a>, u32> {
    if upper == NULL {
        return Ok(upper);
    }
    (RULES.others)(lower, upper)
}

fn kind(value: &Value) -> u32 {
    match value {
        Value::Leaf(kind, _) => *kind,
        Value::Array(_) => 8,
        Value::Object(_) => 9,
    }
}
