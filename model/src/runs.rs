//! A run of turns at once: K4 of document 02, sentence by sentence, with the pages of K6.

use crate::register::{Day, Desk, Refusal, Turn};

/// What one turn of a run is answered: "a refused turn is answered with its number".
pub type Answer = Result<Turn, Refusal>;

impl Day {
    /// "The chapel laptop sends a list of desk numbers, and each is one turn. Answers go in a lent
    /// table in order, pages in a second table at n words a turn; every other place of both remains."
    /// "a run's pages lie 2n apart". A place of the answer table is none where nothing was ever put.
    pub fn run(
        &mut self,
        table: &mut [Desk],
        desks: &[u32],
        answers: &mut [Option<Answer>],
        pages: &mut [u32],
    ) -> Result<(), Refusal> {
        self.refuse_run(table.len(), desks.len(), answers.len(), pages.len())?;
        let n = self.desks as usize;
        for (i, &desk) in desks.iter().enumerate() {
            // "Everything equals giving the turns one by one; a refused turn is answered with its
            // number and the next follows."
            let page = &mut pages[i * 2 * n..(i + 1) * 2 * n];
            answers[i] = Some(self.turn(table, desk, page));
        }
        Ok(())
    }

    /// "Only 10, 6 and 13 refuse the run itself." The turns of a refused run are not given, so that
    /// "Day, records and page remain unchanged".
    fn refuse_run(
        &self,
        records: usize,
        turns: usize,
        places: usize,
        words: usize,
    ) -> Result<(), Refusal> {
        if self.desks == 0 {
            return Err(Refusal::OpenOrNot);
        }
        if records != self.desks as usize {
            return Err(Refusal::LentSize);
        }
        // "13 [...] right after 6 and instead of its page part": no turn's page list is too short. It
        // "now ask[s] for 2n places".
        if places < turns || (words as u128) < turns as u128 * 2 * u128::from(self.desks) {
            return Err(Refusal::TableShort);
        }
        Ok(())
    }
}
