//! What this shop has of its own.

/// Books are taxed less.
private fn tax(price) { price * 7 / 100 }

/// Tells those who ask.
private fn told(price) { print(price) }

/// Is called through a pointer.
private fn doubled(price) { price + price }

print(call(Fn("doubled"), paid(200)));
