//! The field of 256 elements with polynomial 11D hexadecimal, worked out bit by bit without any table, and its test
//! against the published tables.

use crate::published::Tables;
use crate::Outcome;

/// The field's polynomial.
const POLYNOMIAL: u16 = 0x11d;

/// The product of two elements: a carry-less product of 15 bits, then the remainder by the polynomial.
pub fn mul(a: u8, b: u8) -> u8 {
    let mut product = 0;
    for bit in 0..8 {
        product ^= (u16::from(a) << bit) * u16::from(b >> bit & 1);
    }
    for bit in (8..15).rev() {
        product ^= (POLYNOMIAL << (bit - 8)) * (product >> bit & 1);
    }
    product as u8
}

/// The element a to the power n.
pub fn power(a: u8, n: u32) -> u8 {
    let mut result = 1;
    for bit in (0..u32::BITS - n.leading_zeros()).rev() {
        result = mul(result, result);
        if n >> bit & 1 == 1 {
            result = mul(result, a);
        }
    }
    result
}

/// The element that gives 1 when it is multiplied by a; 0 for 0.
pub fn inverse(a: u8) -> u8 {
    power(a, 254)
}

/// Fails where the arithmetic above is not what was published.
pub fn group(_seed: u64) -> Outcome {
    let tables = Tables::read()?;
    for (n, &published) in tables.power.iter().enumerate() {
        same(&format!("2 to the power {n}"), power(2, n as u32), published)?;
    }
    for (a, &published) in tables.inverse.iter().enumerate().skip(1) {
        same(&format!("the inverse of {a}"), inverse(a as u8), published)?;
    }
    for row in &tables.rows {
        for (b, &published) in row.products.iter().enumerate() {
            same(&format!("{} times {b}", row.factor), mul(row.factor, b as u8), published)?;
        }
    }
    Ok(format!(
        "256 powers, 255 inverses, {} rows of 256 products: the tests' arithmetic is as published",
        tables.rows.len()
    ))
}

/// Fails where the tests' own arithmetic gives another element than the published one.
fn same(what: &str, own: u8, published: u8) -> Result<(), String> {
    if own == published {
        return Ok(());
    }
    Err(format!("{what} is {own} by the tests' arithmetic, published is {published}"))
}
