//! Eight clock bytes, the date that they mean, one second later, and alarms.

pub type ClockBytes = [u8; 8];

/// 1 January 2000, 12:00:00 AM, weekday 0.
pub const START: ClockBytes = [0x00, 0x00, 0x12, 0x01, 0x01, 0x00, 0x00, 0x20];

#[derive(Clone, Copy, PartialEq, Debug)]
pub enum HourForm {
    Twelve,
    TwentyFour,
}

/// A date by its fields. The hour is that of the day, 0 to 23, in either form.
#[derive(Clone, Copy, PartialEq, Debug)]
pub struct Date {
    second: u32,
    minute: u32,
    hour: u32,
    form: HourForm,
    date: u32,
    month: u32,
    year: u32,
    weekday: u32,
}

/// What two decimal digits count, if it lies from `low` to `high`.
fn count(byte: u8, low: u32, high: u32) -> Option<u32> {
    let units = u32::from(byte & 0x0F);
    let whole = 10 * u32::from(byte >> 4) + units;
    (units <= 9 && low <= whole && whole <= high).then_some(whole)
}

fn digits(count: u32) -> u8 {
    (16 * (count / 10) + count % 10) as u8
}

fn hours(byte: u8) -> Option<(u32, HourForm)> {
    if byte & 0x80 != 0 {
        return Some((count(byte & 0x7F, 0, 23)?, HourForm::TwentyFour));
    }
    if byte & 0x40 != 0 {
        return None;
    }
    let of_half = count(byte & 0x1F, 1, 12)? % 12;
    let half = if byte & 0x20 != 0 { 12 } else { 0 };
    Some((half + of_half, HourForm::Twelve))
}

fn hour_byte(hour: u32, form: HourForm) -> u8 {
    match form {
        HourForm::TwentyFour => 0x80 | digits(hour),
        HourForm::Twelve => {
            let of_half = if hour % 12 == 0 { 12 } else { hour % 12 };
            let pm = if hour >= 12 { 0x20 } else { 0x00 };
            pm | digits(of_half)
        }
    }
}

fn is_leap(year: u32) -> bool {
    if year % 100 == 0 {
        year % 400 == 0
    } else {
        year % 4 == 0
    }
}

fn days_of(month: u32, year: u32) -> u32 {
    match month {
        2 if is_leap(year) => 29,
        2 => 28,
        4 | 6 | 9 | 11 => 30,
        _ => 31,
    }
}

impl Date {
    /// The date that the bytes mean, or the first register that is bad.
    pub fn read(bytes: &ClockBytes) -> Result<Date, u8> {
        let second = count(bytes[0], 0, 59).ok_or(0x30)?;
        let minute = count(bytes[1], 0, 59).ok_or(0x31)?;
        let (hour, form) = hours(bytes[2]).ok_or(0x32)?;
        let date = count(bytes[3], 1, 31).ok_or(0x33)?;
        let month = count(bytes[4], 1, 12).ok_or(0x34)?;
        let in_century = count(bytes[5], 0, 99).ok_or(0x35)?;
        let weekday = if bytes[6] <= 6 { u32::from(bytes[6]) } else { return Err(0x36) };
        let century = count(bytes[7], 19, 20).ok_or(0x37)?;
        let year = 100 * century + in_century;
        if date > days_of(month, year) {
            return Err(0x33);
        }
        Ok(Date { second, minute, hour, form, date, month, year, weekday })
    }

    pub fn bytes(&self) -> ClockBytes {
        [
            digits(self.second),
            digits(self.minute),
            hour_byte(self.hour, self.form),
            digits(self.date),
            digits(self.month),
            digits(self.year % 100),
            self.weekday as u8,
            digits(self.year / 100),
        ]
    }

    fn step_second(&mut self) {
        self.second += 1;
        if self.second == 60 {
            self.second = 0;
            self.step_minute();
        }
    }

    fn step_minute(&mut self) {
        self.minute += 1;
        if self.minute == 60 {
            self.minute = 0;
            self.step_hour();
        }
    }

    fn step_hour(&mut self) {
        self.hour += 1;
        if self.hour == 24 {
            self.hour = 0;
            self.weekday = (self.weekday + 1) % 7;
            self.step_date();
        }
    }

    fn step_date(&mut self) {
        self.date += 1;
        if self.date > days_of(self.month, self.year) {
            self.date = 1;
            self.month += 1;
            if self.month == 13 {
                self.month = 1;
                self.year = if self.year == 2099 { 2000 } else { self.year + 1 };
            }
        }
    }
}

/// One second later. Bytes that are no date stay as they are.
pub fn next(bytes: &ClockBytes) -> ClockBytes {
    match Date::read(bytes) {
        Ok(mut date) => {
            date.step_second();
            date.bytes()
        }
        Err(_) => *bytes,
    }
}

/// Whether the alarm's enabled bytes all equal the clock's.
pub fn matches(alarm: &ClockBytes, clock: &ClockBytes) -> bool {
    // Seconds, minutes, hours, date, month and weekday, with the bits compared.
    let compared = [(0, 0x7F), (1, 0x7F), (2, 0x3F), (3, 0x7F), (4, 0x7F), (6, 0x7F)];
    let mut enabled = compared.iter().filter(|(k, _)| alarm[*k] & 0x80 != 0).peekable();
    enabled.peek().is_some() && enabled.all(|(k, bits)| (alarm[*k] ^ clock[*k]) & bits == 0)
}
