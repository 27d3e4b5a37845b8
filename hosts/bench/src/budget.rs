//! What the door may take at the most, and what it aims at.

pub struct Budget {
    pub most: f64,
    pub aim: f64,
}

impl Budget {
    pub fn holds(&self, figure: f64) -> bool {
        figure <= self.most
    }

    pub fn verdict(&self, figure: f64) -> &'static str {
        match figure {
            figure if figure <= self.aim => "OK, within the aim",
            figure if self.holds(figure) => "OK, above the aim",
            _ => "OVER",
        }
    }
}
