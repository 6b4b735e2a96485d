//! What the figures of a set of quarters have reached.

use crate::counts::Reached;
use crate::figures::{Answer, Figures, MOST_ANSWERS};
use crate::quarters::{answers, DayFile};
use crate::register::{most_reads, Refusal, PLACES};

#[derive(Default)]
pub struct FigureCounts {
    /// Figures in which some pages are borrowed, and those in which none is, by n.
    borrowed: [u64; PLACES + 1],
    clean: [u64; PLACES + 1],
    /// Means of several pages: whole numbers, fractions that were reduced, and others.
    means: [u64; 3],
    /// Shares of several pages, some of them borrowed: all, fractions that were reduced, and others.
    shares: [u64; 3],
    /// Figures whose largest turn count is not that of all answers.
    larger_elsewhere: u64,
    /// Figures to which a file gave pages before 7, 8 or 9 ended it, by number.
    ended: [u64; 12],
    /// Figures with pages of a file in which a record was refused.
    refused: u64,
    /// Figures with an empty file, and with a file that is named again.
    empty: u64,
    again: u64,
    /// Figures of 65,535 answers: all of the desk count asked for, or not.
    most: [u64; 2],
    /// Refusal 14 by whether there are pages at all, and of 65,535 answers.
    no_page: [u64; 3],
    /// Refusal 15 by whether the desk count has a page, and 65,536 answers.
    too_many: [u64; 3],
    /// Refusal 1, and that of more than 65,535 answers.
    outside: [u64; 2],
}

impl FigureCounts {
    /// Takes in what a quarter is answered. Answers what is wrong with it.
    pub fn watch(
        &mut self,
        days: &[DayFile],
        asked: u32,
        found: &Result<Figures, Refusal>,
    ) -> Result<(), String> {
        let answers = answers(days);
        match found {
            Ok(figures) => {
                held(figures)?;
                self.figures(figures, &answers);
                self.files(days, asked);
            }
            Err(refusal) => self.refusal(*refusal, asked, &answers),
        }
        Ok(())
    }

    fn figures(&mut self, figures: &Figures, answers: &[Answer]) {
        let Figures { desks, pages, mean, borrowed, largest } = figures;
        let kind = |under: u64| match under {
            1 => 0,
            _ if under < *pages => 1,
            _ => 2,
        };
        let some = if borrowed.over > 0 { &mut self.borrowed } else { &mut self.clean };
        some[*desks as usize] += 1;
        if *pages > 1 {
            self.means[kind(mean.under)] += 1;
        }
        if *pages > 1 && borrowed.over > 0 {
            self.shares[kind(borrowed.under)] += 1;
        }
        self.larger_elsewhere += u64::from(answers.iter().any(|answer| answer.turns > *largest));
        if answers.len() == MOST_ANSWERS {
            self.most[usize::from(*pages < MOST_ANSWERS as u64)] += 1;
        }
    }

    fn files(&mut self, days: &[DayFile], asked: u32) {
        let gives = |day: &&DayFile| day.pages.answers.iter().any(|answer| answer.desks == asked);
        for day in days.iter().filter(gives) {
            self.ended[day.pages.ended_by.map_or(0, |refusal| refusal as usize)] += 1;
            self.refused += u64::from(day.pages.refused > 0);
        }
        self.empty += u64::from(days.iter().any(|day| day.file.is_empty()));
        let mut names: Vec<&str> = days.iter().filter(gives).map(|day| day.name.as_str()).collect();
        names.sort();
        self.again += u64::from(names.windows(2).any(|pair| pair[0] == pair[1]));
    }

    fn refusal(&mut self, refusal: Refusal, asked: u32, answers: &[Answer]) {
        let no_page = answers.iter().all(|answer| answer.desks != asked);
        match refusal {
            Refusal::DeskCount => {
                self.outside[0] += 1;
                self.outside[1] += u64::from(answers.len() > MOST_ANSWERS);
            }
            Refusal::TooManyAnswers => {
                self.too_many[usize::from(no_page)] += 1;
                self.too_many[2] += u64::from(answers.len() == MOST_ANSWERS + 1);
            }
            _ => {
                self.no_page[usize::from(answers.is_empty())] += 1;
                self.no_page[2] += u64::from(answers.len() == MOST_ANSWERS);
            }
        }
    }

    /// What all of the quarters have to reach.
    pub fn reached(&self) -> Reached {
        let mut reached = Reached::default();
        reached.add("figures with borrowed pages, n = 2 to 8", &self.borrowed[2..]);
        reached.add("figures without, n = 1 to 8", &self.clean[1..]);
        reached.add("means that are whole, reduced fractions, other fractions", &self.means);
        reached.add("shares that are all, reduced fractions, other fractions", &self.shares);
        let name = "figures whose largest turn count another desk count exceeds";
        reached.add(name, &[self.larger_elsewhere]);
        reached.add("files with pages that 7, 8, 9 ended", &self.ended[7..=9]);
        reached.add("files with pages and refused records", &[self.refused]);
        reached.add("figures with empty files, with files named again", &[self.empty, self.again]);
        reached.add("figures of 65,535 answers, all asked for or not", &self.most);
        reached.add("refused 14 with other pages, without, of 65,535 answers", &self.no_page);
        reached.add("refused 15 with a page, without, of 65,536 answers", &self.too_many);
        reached.add("refused 1, of more than 65,535 answers", &self.outside);
        reached
    }
}

/// A desk alone borrows from nobody, and a page takes 2n to 2n² turns.
fn held(figures: &Figures) -> Result<(), String> {
    let Figures { desks, mean, borrowed, largest, .. } = figures;
    let least = u64::from(2 * desks) * mean.under <= mean.over;
    let most = mean.over <= u64::from(*largest) * mean.under && *largest <= most_reads(*desks);
    let alone = *desks > 1 || (borrowed.over, borrowed.under) == (0, 1);
    match least && most && alone {
        true => Ok(()),
        false => Err(format!("the model's figures cannot be: {figures:?}")),
    }
}
