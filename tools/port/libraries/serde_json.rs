//! What is called of the library `serde_json`: JSON is read to a value, looked at, and written. Its own sources stand
//! on more of the library `serde`; this follows its `de.rt`, `index.rt`, `number.rt` and `ser.rt`.
use fast_float::Numeral;
use json::{Reader, Scratch, Token, Writer};
use rattle::alloc::{AllocError, AllocFailed, Global};
use rattle::collections::{BTreeMap, String, Vec};

const MAX_DEPTH: usize = 127;

pub type Map<K, V> = BTreeMap<K, V>;

#[derive(Debug)]
pub enum Value {
    Null,
    Bool(bool),
    Number(Number),
    String(String),
    Array(Vec<Value>),
    Object(Map<String, Value>),
}

#[derive(Clone, Copy, Debug, PartialEq)]
pub enum Number {
    PosInt(u64),
    NegInt(i64),
    Float(f64),
}

#[derive(Clone, Copy, Debug, PartialEq, Eq)]
pub enum Category {
    Syntax,
    Memory,
}

#[derive(Clone, Copy, Debug)]
pub struct Error(Category);

impl Error {
    pub fn classify(&self) -> Category {
        self.0
    }
    pub fn is_memory(&self) -> bool {
        self.0 == Category::Memory
    }
}

impl From<json::Invalid> for Error {
    fn from(_: json::Invalid) -> Error {
        Error(Category::Syntax)
    }
}
impl From<AllocError> for Error {
    fn from(_: AllocError) -> Error {
        Error(Category::Memory)
    }
}
impl<T> From<AllocFailed<T>> for Error {
    fn from(_: AllocFailed<T>) -> Error {
        Error(Category::Memory)
    }
}

impl Number {
    fn parse(text: &str) -> Option<Number> {
        let bytes = text.as_bytes();
        let (is_negative, digits) = match bytes {
            [b'-', digits @ ..] => (true, digits),
            digits => (false, digits),
        };
        let numeral = Numeral::scan(digits);
        if is_negative {
            if let Some(number) = numeral.to_i64(true) {
                if number < 0 {
                    return Some(Number::NegInt(number));
                }
            }
        } else if let Some(number) = numeral.to_u64() {
            return Some(Number::PosInt(number));
        }
        let nearest = numeral.to_float::<f64>(is_negative);
        nearest.is_finite().then(|| Number::Float(nearest))
    }
}

pub trait Index {
    fn index_into<'v>(&self, value: &'v Value) -> Option<&'v Value>;
}
impl Index for usize {
    fn index_into<'v>(&self, value: &'v Value) -> Option<&'v Value> {
        match value {
            Value::Array(items) => items.get(*self),
            _ => None,
        }
    }
}
impl Index for &str {
    fn index_into<'v>(&self, value: &'v Value) -> Option<&'v Value> {
        match value {
            Value::Object(members) => members.get(*self),
            _ => None,
        }
    }
}

impl Value {
    pub fn from_slice(alloc: Global, bytes: &[u8]) -> Result<Value, Error> {
        match std::str::from_utf8(bytes) {
            Ok(text) => Value::from_str(alloc, text),
            Err(_) => Err(Error(Category::Syntax)),
        }
    }

    pub fn from_str(alloc: Global, text: &str) -> Result<Value, Error> {
        let mut scratch = Scratch::new(alloc);
        let mut reader = Reader::new(text, &mut scratch)?;
        let value = read(alloc, &mut reader, MAX_DEPTH)?;
        match reader.next() {
            Some(_) => Err(Error(Category::Syntax)),
            None => Ok(value),
        }
    }

    pub fn get<I: Index>(&self, index: I) -> Option<&Value> {
        index.index_into(self)
    }
    pub fn as_array(&self) -> Option<&Vec<Value>> {
        match self {
            Value::Array(items) => Some(items),
            _ => None,
        }
    }
    pub fn as_object(&self) -> Option<&Map<String, Value>> {
        match self {
            Value::Object(members) => Some(members),
            _ => None,
        }
    }
    pub fn as_str(&self) -> Option<&str> {
        match self {
            Value::String(text) => Some(text.as_str()),
            _ => None,
        }
    }
    pub fn as_bool(&self) -> Option<bool> {
        match self {
            Value::Bool(is) => Some(*is),
            _ => None,
        }
    }
    pub fn as_u64(&self) -> Option<u64> {
        match self {
            Value::Number(Number::PosInt(number)) => Some(*number),
            _ => None,
        }
    }
    pub fn is_null(&self) -> bool {
        matches!(self, Value::Null)
    }
    pub fn to_string(&self, alloc: Global) -> Result<String, AllocError> {
        let mut out = Writer::new(Vec::new(alloc));
        write(self, &mut out)?;
        Ok(String::from_utf8(out.into_inner()).unwrap())
    }
}

impl From<&str> for Value {
    fn from(text: &str) -> Value {
        Value::String(String::from_str(Global, text).unwrap())
    }
}
impl From<u16> for Value {
    fn from(number: u16) -> Value {
        Value::Number(Number::PosInt(number.into()))
    }
}

/// An object of members whose names are literals.
#[macro_export]
macro_rules! json {
    (in $alloc:expr; { $($name:literal: $value:expr),* }) => {{
        let mut members = $crate::Map::new($alloc);
        $(
            let name = rattle::collections::String::from_str($alloc, $name).unwrap();
            members.insert(name, $crate::Value::from($value)).unwrap();
        )*
        Ok::<_, rattle::alloc::AllocError>($crate::Value::Object(members))
    }};
}

fn write(value: &Value, out: &mut Writer) -> Result<(), AllocError> {
    match value {
        Value::Null => out.null(),
        Value::Bool(is) => out.boolean(*is),
        Value::Number(Number::PosInt(number)) => out.u64(*number),
        Value::Number(Number::NegInt(number)) => out.i64(*number),
        Value::Number(Number::Float(number)) => out.float(*number),
        Value::String(text) => out.string(text.as_str()),
        Value::Array(items) => {
            out.begin_array()?;
            items.iter().try_for_each(|item| write(item, out))?;
            out.end_array()
        }
        Value::Object(members) => {
            out.begin_object()?;
            for (name, member) in members.iter() {
                out.key(name.as_str())?;
                write(member, out)?;
            }
            out.end_object()
        }
    }
}

fn read(alloc: Global, reader: &mut Reader<'_>, depth: usize) -> Result<Value, Error> {
    let invalid = Error(Category::Syntax);
    match reader.next().ok_or(invalid)? {
        Token::String(text) => Ok(Value::String(String::from_str(alloc, text)?)),
        Token::Number(text) => Number::parse(text).map(Value::Number).ok_or(invalid),
        Token::Bool(is) => Ok(Value::Bool(is)),
        Token::Null => Ok(Value::Null),
        Token::EndObject | Token::EndArray | Token::Key(_) | Token::Bad => Err(invalid),
        Token::BeginArray | Token::BeginObject if depth == 0 => Err(invalid),
        Token::BeginArray => {
            let mut found = Vec::new(alloc);
            while !reader.take_end_array() {
                found.push(read(alloc, reader, depth - 1)?)?;
            }
            Ok(Value::Array(found))
        }
        Token::BeginObject => {
            let mut found = Map::new(alloc);
            while let Some(name) = reader.next_key()? {
                let name = String::from_str(alloc, name)?;
                let value = read(alloc, reader, depth - 1)?;
                found.insert(name, value)?;
            }
            Ok(Value::Object(found))
        }
    }
}
