//! A payment, and the value of its record.

use std::collections::HashMap;

/// An amount in cents that goes from one account to another one.
#[derive(Clone, Debug, PartialEq, Eq)]
pub struct Payment {
    /// The customer's order.
    pub id: u32,
    /// The account that pays: letters and digits.
    pub from: String,
    /// The account that is paid.
    pub to: String,
    /// The cents.
    pub amount: u32,
}

impl Payment {
    /// The value of its record.
    #[must_use]
    pub fn record(&self) -> String {
        format!("id={}&from={}&to={}&amount={}", self.id, self.from, self.to, self.amount)
    }

    /// The payment that a record's value is, if it is one.
    #[must_use]
    pub fn of_record(value: &str) -> Option<Payment> {
        let fields: HashMap<&str, &str> = value.split('&').map(|it| it.split_once('=')).collect::<Option<_>>()?;
        let name = |field: &str| fields.get(field).map(|it| (*it).to_string()).filter(|it| it.chars().all(char::is_alphanumeric));
        Some(Payment {
            id: fields.get("id")?.parse().ok()?,
            from: name("from")?,
            to: name("to")?,
            amount: fields.get("amount")?.parse().ok()?,
        })
    }

    /// The payment of an order, as `11 anna ben 250`.
    #[must_use]
    pub fn of_order(line: &str) -> Option<Payment> {
        let [id, from, to, amount] = line.split_whitespace().collect::<Vec<_>>()[..] else { return None };
        Payment::of_record(&format!("id={id}&from={from}&to={to}&amount={amount}"))
    }
}

#[cfg(test)]
mod tests {
    use super::*;

    #[test]
    fn what_is_written_is_read() {
        let payment = Payment { id: 11, from: "anna".to_string(), to: "ben".to_string(), amount: 250 };
        assert_eq!(payment.record(), "id=11&from=anna&to=ben&amount=250");
        assert_eq!(Payment::of_record(&payment.record()).as_ref(), Some(&payment));
        assert_eq!(Payment::of_order("11 anna ben 250"), Some(payment));
        for line in ["", "11 anna ben", "x anna ben 250", "11 anna ben -250", "11 an&na ben 250"] {
            assert_eq!(Payment::of_order(line), None, "{line}");
        }
    }
}
