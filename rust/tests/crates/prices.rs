//! Prices that raise the bound of the second search. Their bound is never above the cost of a cheapest plan, and the
//! checker accepts the certificate that shows it.
#[path = "prices/bounds.rs"]
mod bounds;
#[path = "prices/drawn.rs"]
mod drawn;
#[path = "prices/worked.rs"]
mod worked;
