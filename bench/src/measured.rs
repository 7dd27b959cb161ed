//! What was measured of one workload.

/// The region of a workload, and what the library answered.
#[derive(Clone, Copy)]
pub struct Asked {
    pub kind: &'static str,
    pub share: f64,
    pub h: usize,
    pub inside: u32,
    pub visits: u32,
}

/// How many regions a call for several of them is measured with.
pub const REGIONS: usize = 64;

/// The check, which is a part of every call that needs the tree: the arrange call on the tree; and the same where half is dead.
pub const CHECK: &str = "arrange on the tree";
pub const HALF_CHECK: &str = "arrange on the tree, half dead";

/// The call that a workload is for; arranging has the check too.
#[derive(Clone, Copy)]
pub enum Call {
    Arrange,
    WrongOrders,
    List,
    Regions,
    Screen,
    Explain,
    Colours,
    Changes,
    HalfArrange,
    HalfList,
}

/// A workload and the best time of each contender, in microseconds.
pub struct Measured {
    pub call: Call,
    pub points: &'static str,
    pub k: usize,
    pub n: usize,
    pub asked: Option<Asked>,
    pub times: Vec<(&'static str, f64)>,
}

impl Measured {
    /// Whether the workload is a list.
    pub fn is_list(&self) -> bool {
        matches!(self.call, Call::List)
    }

    /// Whether the workload is several regions in one call.
    pub fn is_regions(&self) -> bool {
        matches!(self.call, Call::Regions)
    }

    /// Whether the workload is arranging, beside other builders.
    pub fn is_arrange(&self) -> bool {
        matches!(self.call, Call::Arrange)
    }

    /// The time of the contender of this name. A walk, or a way, is what its call takes beyond the check; a region, or the walk alone, what it
    /// takes beyond the check and the root box. The root box is what a screen that finds the first slot takes beyond the check, and the walk
    /// less it what the list call takes beyond such a screen.
    pub fn time(&self, name: &str) -> f64 {
        let beyond = |call: &str, part: &str| (self.time(call) - self.time(part)).max(0.0);
        let beyond_check = |call: &str| beyond(call, CHECK);
        let of_each = |micros: f64| micros / REGIONS as f64;
        let shared = || self.time(CHECK) + self.time("root box by hand");
        match name {
            "on the tree and from zeros" => return self.time(CHECK) + self.time("arrange"),
            "walk" => return beyond_check("list"),
            "screen's walk" => return beyond_check("screen"),
            "explain's way" => return beyond_check("explain"),
            "a region" => return of_each(self.time("regions") - shared()),
            "walk alone" => return of_each(self.time("64 list calls")) - shared(),
            "root box" => return beyond_check("screen"),
            "root box, half dead" => return beyond("screen, half dead", HALF_CHECK),
            "walk less root box" => return beyond("list", "screen"),
            "walk less root box, half dead" => {
                return beyond("list, half dead", "screen, half dead")
            }
            _ => {}
        }
        let found = self.times.iter().find(|(known, _)| *known == name);
        found.expect("the contender was measured").1
    }
}
