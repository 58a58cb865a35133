//! The reading half of the stand-in for `serde`.

use std::fmt;

pub trait Error: Sized {
    fn custom<T: fmt::Display>(message: T) -> Self;
}

pub trait Deserialize<'de>: Sized {
    fn deserialize<D: Deserializer<'de>>(deserializer: D) -> Result<Self, D::Error>;
}

pub trait Deserializer<'de>: Sized {
    type Error: Error;

    fn deserialize_any<V: Visitor<'de>>(self, visitor: V) -> Result<V::Value, Self::Error>;
    fn deserialize_map<V: Visitor<'de>>(self, visitor: V) -> Result<V::Value, Self::Error>;
}

pub trait MapAccess<'de> {
    type Error: Error;

    fn next_entry<K: Deserialize<'de>, V: Deserialize<'de>>(
        &mut self,
    ) -> Result<Option<(K, V)>, Self::Error>;
}

pub trait Visitor<'de>: Sized {
    type Value;

    fn expecting(&self, formatter: &mut fmt::Formatter) -> fmt::Result;

    fn visit_str<E: Error>(self, _value: &str) -> Result<Self::Value, E> {
        Err(E::custom("not expected here"))
    }

    fn visit_i64<E: Error>(self, _value: i64) -> Result<Self::Value, E> {
        Err(E::custom("not expected here"))
    }

    fn visit_u64<E: Error>(self, _value: u64) -> Result<Self::Value, E> {
        Err(E::custom("not expected here"))
    }

    fn visit_map<A: MapAccess<'de>>(self, _map: A) -> Result<Self::Value, A::Error> {
        Err(Error::custom("not expected here"))
    }
}
