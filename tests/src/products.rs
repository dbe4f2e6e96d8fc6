//! All 65,536 products of the field as the archives give them, and the published tables against the library.

use crate::calls::{probe_mul, Call};
use crate::field::{inverse, mul, power};
use crate::published::Tables;
use crate::random::Random;
use crate::Outcome;
use std::collections::BTreeSet;

/// Every byte once: the bytes of a block of 256.
fn all_bytes() -> Vec<u8> {
    (0..=255).collect()
}

/// Fails unless stripe_make_parity gives, as Q, the row of products of the factor with 0 to 255. Data block i, of
/// eight, is 0 to 255 where bit i of the factor is 1, else zeros: the sum of 2^i times block i is the product.
fn row_in_q(factor: u8, products: &[u8]) -> Result<(), String> {
    let mut before = Vec::new();
    for bit in 0..8 {
        before.extend(all_bytes().iter().map(|byte| byte * (factor >> bit & 1)));
    }
    let mut after = before.clone();
    let odd = (factor.count_ones() % 2) as u8;
    after.extend(all_bytes().iter().map(|byte| byte * odd));
    after.extend(products);
    before.resize(after.len(), 0xa5);
    Call::make(8, 2, 256).expect(&before, 0, &after).map_err(|fault| format!("{factor} times 0 to 255 as Q: {fault}"))
}

/// Fails unless Q has the tests' own product for every two elements.
fn products_in_q() -> Result<(), String> {
    all_bytes().iter().try_for_each(|&a| row_in_q(a, &all_bytes().iter().map(|&b| mul(a, b)).collect::<Vec<u8>>()))
}

/// Fails unless, as Q, the published rows appear, 2 times a published power is the next, an element times its published
/// inverse is 1, and the first sixteen powers are the weights.
fn published_in_q(tables: &Tables) -> Result<(), String> {
    for row in &tables.rows {
        row_in_q(row.factor, &row.products).map_err(|fault| format!("published row: {fault}"))?;
    }
    for n in 0..255 {
        product_in_q(2, tables.power[n], tables.power[n + 1])
            .map_err(|fault| format!("published power {n}: {fault}"))?;
    }
    for a in 1..=255u8 {
        product_in_q(tables.inverse[usize::from(a)], a, 1)
            .map_err(|fault| format!("published inverse of {a}: {fault}"))?;
    }
    for i in 0..16 {
        weight_in_q(i, tables.power[i]).map_err(|fault| format!("weight of data {i}: {fault}"))?;
    }
    Ok(())
}

/// Fails unless a stripe of one-byte blocks has a times b for its Q, data block i being b where bit i of a is 1.
fn product_in_q(a: u8, b: u8, product: u8) -> Result<(), String> {
    let mut stripe: Vec<u8> = (0..8).map(|bit| b * (a >> bit & 1)).collect();
    stripe.extend([b * (a.count_ones() % 2) as u8, product]);
    Call::make(8, 2, 1).expect(&[&stripe[..8], &[0xa5, 0x5a]].concat(), 0, &stripe)
}

/// Fails unless Q is the weight where data i of sixteen is 1 and all other data is 0.
fn weight_in_q(i: usize, weight: u8) -> Result<(), String> {
    let mut stripe = [0; 18];
    (stripe[i], stripe[16], stripe[17]) = (1, 1, weight);
    Call::make(16, 2, 1).expect(&[&stripe[..16], &[0xa5, 0x5a]].concat(), 0, &stripe)
}

/// Fails unless recovery multiplies as the tests do, for each factor it uses and all 256 bytes. With Q 0 to 255 and
/// the rest 0, data x is Q over 2^x where x and P are missing, and Q over 2^x + 2^y where x and y are.
/// Those are 16 and 111 different factors for d up to 16, 127 in all, and that number is handed back.
fn quotients() -> Result<usize, String> {
    let mut factors = BTreeSet::new();
    for x in 0..16 {
        factors.insert(quotient(x, 16, power(2, x as u32))?);
        for y in (0..16).filter(|&y| y != x) {
            factors.insert(quotient(x, y, power(2, x as u32) ^ power(2, y as u32))?);
        }
    }
    match factors.len() {
        127 => Ok(127),
        count => Err(format!("recovery is to use 127 factors, the tests went through {count}")),
    }
}

/// Fails unless the recovery of x and y, of sixteen data blocks and P, leaves Q times the inverse of the divisor in
/// both, for Q 0 to 255. Hands back that inverse.
fn quotient(x: usize, y: usize, divisor: u8) -> Result<u8, String> {
    let factor = inverse(divisor);
    let products: Vec<u8> = all_bytes().iter().map(|&q| mul(factor, q)).collect();
    let mut before = vec![0; 18 * 256];
    before[17 * 256..].copy_from_slice(&all_bytes());
    let mut after = before.clone();
    for member in [x, y] {
        before[member * 256..][..256].fill(0xa5);
        after[member * 256..][..256].copy_from_slice(&products);
    }
    Call::recover(16, 2, 256, x, y).expect(&before, 0, &after).map_err(|fault| format!("Q times {factor}: {fault}"))?;
    Ok(factor)
}

/// Fails unless the probe gives the tests' own product for every two elements, whatever stands above the low bytes.
fn products_of_probe(random: &mut Random) -> Result<(), String> {
    for a in 0..256 {
        for b in 0..256 {
            let high = random.next();
            same_product(a, b)?;
            same_product(a | (high as u32) << 8, b | ((high >> 32) as u32) << 8)?;
        }
    }
    Ok(())
}

/// Fails unless the probe multiplies the low bytes of two numbers as the tests do.
fn same_product(a: u32, b: u32) -> Result<(), String> {
    let (found, expected) = (probe_mul(a, b), u32::from(mul(a as u8, b as u8)));
    if found == expected {
        return Ok(());
    }
    Err(format!("probe_mul({a}, {b}) answers {found}, not {expected}"))
}

/// Covers every product through the calls and through the probe.
pub fn group(seed: u64) -> Outcome {
    let tables = Tables::read()?;
    published_in_q(&tables)?;
    products_in_q()?;
    let factors = quotients()?;
    products_of_probe(&mut Random::new(seed, 1))?;
    let calls = format!("65536 as Q, published tables as Q, {factors} factors of recovery times 256 bytes");
    Ok(format!("{calls}, 65536 by the probe; seed {seed}"))
}
