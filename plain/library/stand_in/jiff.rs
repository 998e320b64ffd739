pub mod civil {
    pub struct Date;

    impl Date {
        /// A date that the calendar has.
        pub fn new(year: i16, month: i8, day: i8) -> Result<Date, ()> {
            let leaps = year % 4 == 0 && (year % 100 != 0 || year % 400 == 0);
            let days = match month {
                2 => 28 + i8::from(leaps),
                4 | 6 | 9 | 11 => 30,
                1..=12 => 31,
                _ => 0,
            };
            if (-9999..=9999).contains(&year) && 1 <= day && day <= days {
                Ok(Date)
            } else {
                Err(())
            }
        }
    }
}
