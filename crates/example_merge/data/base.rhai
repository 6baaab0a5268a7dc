//! What every shop has.
const RATE = 19;

/// What is paid for a price.
fn paid(price) { price + tax(price) }

/// The tax of a price.
private fn tax(price) { price * 19 / 100 }

/// A price in words.
private fn spoken(price) { `${price} cents` }

print(paid(100));
