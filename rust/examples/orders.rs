//! An order book of an exchange: orders by number, each side in the order of price and time. One map has both sides, so a number is given once.
use facetweave::sorted::Iter;
use facetweave::{IdHashItem, IdHashItemMut, IdHashOrdMap, Sortable};

#[derive(Clone, Copy, Debug, PartialEq, Eq, PartialOrd, Ord)]
enum Side {
    Buy,
    Sell,
}

#[derive(Clone, Debug)]
struct Order {
    number: u64,
    side: Side,
    price: i64,
    amount: u64,
    time: u64,
}

impl IdHashItem for Order {
    type Key = u64;

    fn key(&self) -> &u64 {
        &self.number
    }
}

impl IdHashItemMut for Order {
    type Data = u64;

    fn data_mut(&mut self) -> &mut u64 {
        &mut self.amount
    }
}

// The best order of a side comes first: the highest price for which one buys, the lowest for which one sells, and of those the oldest.
impl Sortable for Order {
    type SortKey = (Side, i64, u64);

    fn sort_key(&self) -> (Side, i64, u64) {
        (self.side, if self.side == Side::Buy { -self.price } else { self.price }, self.time)
    }
}

#[derive(Default)]
struct Book {
    orders: IdHashOrdMap<Order>,
    time: u64,
}

impl Book {
    fn side(&self, side: Side) -> Iter<'_, Order> {
        self.orders.range((side, i64::MIN, 0)..=(side, i64::MAX, u64::MAX))
    }

    /// Trades with the best orders of the other side as long as the prices meet, and puts what is left into the book.
    fn place(&mut self, number: u64, side: Side, price: i64, amount: u64) -> Result<(), String> {
        if self.orders.contains_key(number) {
            return Err(format!("there is an order {number} already"));
        }
        self.time += 1;
        let mut order = Order { number, side, price, amount, time: self.time };
        let other = if side == Side::Buy { Side::Sell } else { Side::Buy };
        while let Some(best) = self.side(other).next() {
            let meets = if side == Side::Buy { best.price <= price } else { best.price >= price };
            if order.amount == 0 || !meets {
                break;
            }
            let (best, left, traded) = (best.number, best.amount, best.amount.min(order.amount));
            println!("{number} trades {traded} with {best}");
            order.amount -= traded;
            if traded == left {
                self.orders.remove(best);
            } else {
                self.orders.update(best, |it| it.amount - traded);
            }
        }
        if order.amount > 0 {
            self.orders.try_insert(order).map_err(|e| e.to_string())?;
        }
        Ok(())
    }

    fn show(&self) {
        for side in [Side::Sell, Side::Buy] {
            let orders: Vec<String> = self.side(side).map(|it| format!("{} at {} ({})", it.amount, it.price, it.number)).collect();
            println!("{side:?}: {}", orders.join(", "));
        }
    }
}

fn main() -> Result<(), String> {
    let mut book = Book::default();
    book.place(1, Side::Sell, 101, 5)?;
    book.place(2, Side::Sell, 100, 3)?;
    book.place(3, Side::Sell, 100, 4)?;
    book.place(4, Side::Buy, 98, 2)?;
    book.place(5, Side::Buy, 99, 2)?;
    book.show();

    book.place(6, Side::Buy, 100, 5)?;
    println!("{}", book.place(3, Side::Buy, 100, 5).unwrap_err());
    book.show();

    // An order can be cancelled by its number.
    println!("cancelled: {:?}", book.orders.remove(3).map(|it| it.amount));
    book.place(7, Side::Sell, 98, 10)?;
    book.show();
    Ok(())
}
