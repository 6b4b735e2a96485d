//! The canonical single-writer snapshot automaton of source document 000, section 2.1 and Figure 1,
//! as it stands there. Process i has place i - 1 in `mem` and `h`.

/// The actions of Figure 1, without their process: two of input, "Request", two of output, "Return",
/// and "two types of internal actions", Update and Scan.
#[derive(Clone, Debug, PartialEq, Eq)]
pub enum Action {
    UpdateRequest(u32),
    ScanRequest,
    Update(u32),
    Scan(Vec<u32>),
    UpdateReturn,
    ScanReturn(Vec<u32>),
}

/// "The states of the canonical automaton contain an n-entry array Mem of type Data and n interface
/// variables H_i. The interface variables may hold as value any of the interface snapshot actions,
/// or a special value ⊥." ⊥ is `None`.
#[derive(Clone, Debug, PartialEq, Eq)]
pub struct State {
    pub mem: Vec<u32>,
    pub h: Vec<Option<Action>>,
}

impl State {
    /// "Initially, each H_i = ⊥ and Mem_i = d_init": rows begin with 0.
    pub fn initial(n: usize) -> Self {
        State { mem: vec![0; n], h: vec![None; n] }
    }

    /// Figure 1's preconditions, "with the convention that actions without preconditions are always
    /// enabled".
    fn enabled(&self, i: usize, action: &Action) -> bool {
        match action {
            Action::UpdateRequest(_) | Action::ScanRequest => true,
            Action::Update(d) => self.h[i] == Some(Action::UpdateRequest(*d)),
            Action::Scan(d) => self.h[i] == Some(Action::ScanRequest) && self.mem == *d,
            Action::UpdateReturn => self.h[i] == Some(Action::UpdateReturn),
            Action::ScanReturn(d) => self.h[i] == Some(Action::ScanReturn(d.clone())),
        }
    }

    /// Figure 1's effects, if the action is enabled for `process`.
    pub fn act(&mut self, process: u32, action: &Action) -> Result<(), String> {
        let i = process as usize - 1;
        if !self.enabled(i, action) {
            return Err(format!("{action:?} of process {process} is not enabled in {self:?}"));
        }
        self.h[i] = match action {
            Action::UpdateRequest(_) | Action::ScanRequest => Some(action.clone()),
            Action::Update(d) => {
                self.mem[i] = *d;
                Some(Action::UpdateReturn)
            }
            Action::Scan(d) => Some(Action::ScanReturn(d.clone())),
            Action::UpdateReturn | Action::ScanReturn(_) => None,
        };
        Ok(())
    }
}

/// "The well-formed behaviors of the canonical automaton are those in which no pair of Request_i
/// inputs occurs without an intervening Return_i output."
pub fn well_formed<'a>(n: usize, actions: impl Iterator<Item = (u32, &'a Action)>) -> bool {
    let mut requested = vec![false; n];
    for (process, action) in actions {
        let i = process as usize - 1;
        match action {
            Action::UpdateRequest(_) | Action::ScanRequest if requested[i] => return false,
            Action::UpdateRequest(_) | Action::ScanRequest => requested[i] = true,
            Action::UpdateReturn | Action::ScanReturn(_) => requested[i] = false,
            Action::Update(_) | Action::Scan(_) => {}
        }
    }
    true
}
