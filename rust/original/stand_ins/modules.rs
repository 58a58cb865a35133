// The published modules, at the names they have in their own crate. What only
// the calculation or JSON uses stays unused here.

#[allow(dead_code, unused_imports)]
mod calculate;
#[allow(dead_code)]
mod fit;
#[allow(dead_code, unused_imports)]
mod projection;
mod validate;
