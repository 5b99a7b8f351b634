//! JSON values, as far as the catalog names them. Nothing the oracle answers goes through here: the planner's
//! source only has to find these names when it is compiled.

use std::collections::BTreeMap;

/// A JSON object.
#[derive(Clone, Debug, Default, PartialEq)]
pub struct Map<K: Ord, V>(BTreeMap<K, V>);

impl<K: Ord, V> Map<K, V> {
    pub fn new() -> Self {
        Map(BTreeMap::new())
    }

    pub fn insert(&mut self, key: K, value: V) -> Option<V> {
        self.0.insert(key, value)
    }
}

impl<K: Ord, V> FromIterator<(K, V)> for Map<K, V> {
    fn from_iter<I: IntoIterator<Item = (K, V)>>(pairs: I) -> Self {
        Map(pairs.into_iter().collect())
    }
}

/// A JSON value.
#[derive(Clone, Debug, Default, PartialEq)]
pub enum Value {
    #[default]
    Null,
    Bool(bool),
    Number(u64),
    String(String),
    Array(Vec<Value>),
    Object(Map<String, Value>),
}

/// What `json!` takes.
pub trait Plain {
    fn plain(&self) -> Value;
}

impl Plain for bool {
    fn plain(&self) -> Value {
        Value::Bool(*self)
    }
}

impl Plain for u64 {
    fn plain(&self) -> Value {
        Value::Number(*self)
    }
}

impl Plain for str {
    fn plain(&self) -> Value {
        Value::String(self.to_owned())
    }
}

impl Plain for String {
    fn plain(&self) -> Value {
        Value::String(self.clone())
    }
}

impl<T: Plain> Plain for Vec<T> {
    fn plain(&self) -> Value {
        Value::Array(self.iter().map(Plain::plain).collect())
    }
}

impl<T: Plain + ?Sized> Plain for &T {
    fn plain(&self) -> Value {
        (**self).plain()
    }
}

/// A JSON value of a plain one, or of several in brackets.
#[macro_export]
macro_rules! json {
    ([$($item:expr),*]) => {
        $crate::Value::Array(vec![$($crate::Plain::plain(&$item)),*])
    };
    ($value:expr) => {
        $crate::Plain::plain(&$value)
    };
}
