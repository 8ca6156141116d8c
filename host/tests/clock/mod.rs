//! A clock of plain fields that steps single seconds by carries; it takes nothing from the model,
//! and figures/seconds.rs steps the longest cut with it.

#[derive(Clone, Copy, Debug, PartialEq)]
pub struct Clock {
    pub second: u32,
    pub minute: u32,
    pub hour: u32,
    pub weekday: u32,
    pub date: u32,
    pub month: u32,
    pub year: u32,
    pub century: u32,
}

fn month_length(month: u32, year: u32) -> u32 {
    match month {
        2 if year.is_multiple_of(4) => 29,
        2 => 28,
        4 | 6 | 9 | 11 => 30,
        _ => 31,
    }
}

// Both steps are inlined, so that the timed loop of figures/seconds.rs is compiled as one piece.
impl Clock {
    #[inline]
    pub fn next_second(&mut self) {
        self.second += 1;
        if self.second < 60 {
            return;
        }
        self.second = 0;
        self.minute += 1;
        if self.minute < 60 {
            return;
        }
        self.minute = 0;
        self.hour += 1;
        if self.hour == 24 {
            self.hour = 0;
            self.next_day();
        }
    }

    #[inline]
    pub fn next_day(&mut self) {
        self.weekday = self.weekday % 7 + 1;
        self.date += 1;
        if self.date <= month_length(self.month, self.year) {
            return;
        }
        self.date = 1;
        self.month += 1;
        if self.month <= 12 {
            return;
        }
        self.month = 1;
        self.year += 1;
        if self.year == 100 {
            self.year = 0;
            self.century = (self.century + 1) % 4;
        }
    }
}
