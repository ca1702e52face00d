//! A topic: a few definitions of one crate, how a case of them is written and
//! tested in the prover's language, and the cases.

/// One case: its constructor's term, and the same for people, whose first word is
/// the definition.
pub struct Case {
    pub term: String,
    pub text: String,
}

impl Case {
    pub fn new(term: String, text: String) -> Self {
        Self { term, text }
    }
}

/// How many cases a topic has beside those at document 01's limits and ties, which it
/// always has.
#[derive(Debug, Clone, Copy)]
pub struct Amount {
    /// Random ones of each kind.
    pub random: usize,
    /// One in so many of the small ones that are tried exhaustively.
    pub every: usize,
}

impl Amount {
    /// What the test command has time for.
    pub const SHORT: Self = Self {
        random: 36,
        every: 8,
    };

    pub fn whole(random: usize) -> Self {
        Self { random, every: 1 }
    }

    /// Of a list of small ones.
    pub fn some<T>(self, all: impl IntoIterator<Item = T>) -> impl Iterator<Item = T> {
        all.into_iter().step_by(self.every)
    }
}

/// A module of definitions: its crate, and its file in that crate's `specs/`. The
/// scratch crate knows it by its name in lower case, `walk.begin` being `begin`
/// of `Walk`; every definition in it that the prover keeps folded is unfolded.
pub type Module = (&'static str, &'static str);

pub struct Topic {
    /// The module's name in the scratch crate.
    pub name: &'static str,
    /// The modules whose definitions the cases compute.
    pub modules: Vec<Module>,
    /// `use` lines for whatever else the declarations name.
    pub uses: String,
    /// Declarations: the type `Case`, and `holds : Case → Bool`.
    pub declarations: String,
    pub cases: Vec<Case>,
}

/// What the definitions of each layer compute with, each with those below it.
pub mod layers {
    use super::Module;

    const BASE: &[Module] = &[
        ("integers", "Lists"),
        ("integers", "Faults"),
        ("integers", "Greatest"),
        ("plane", "Plane"),
        ("plane", "Contour"),
    ];

    fn over(below: Vec<Module>, own: &[Module]) -> Vec<Module> {
        let mut all = below;
        for &module in own {
            if !all.contains(&module) {
                all.push(module);
            }
        }
        all
    }

    pub fn mesh() -> Vec<Module> {
        over(BASE.to_vec(), &[("mesh", "Mesh")])
    }

    pub fn table() -> Vec<Module> {
        let own = [
            ("corners", "Corners"),
            ("table", "Table"),
            ("table", "Stored"),
            ("table", "Shown"),
        ];
        over(BASE.to_vec(), &own)
    }

    pub fn convex() -> Vec<Module> {
        over(over(mesh(), &table()), &[("convex", "Joining")])
    }

    pub fn split() -> Vec<Module> {
        over(convex(), &[("split", "Splitting")])
    }

    pub fn listing() -> Vec<Module> {
        let own = [
            ("text", "Text"),
            ("listing", "File"),
            ("listing", "Listing"),
        ];
        over(split(), &own)
    }

    pub fn pair() -> Vec<Module> {
        let own = ["Walk", "Pair", "Premise", "Berg", "Demand"].map(|name| ("pair", name));
        over(BASE.to_vec(), &own)
    }

    pub fn walk() -> Vec<Module> {
        over(over(table(), &pair()), &[("walk", "Calls")])
    }

    pub fn path() -> Vec<Module> {
        let own = [
            ("floats", "Floats"),
            ("grid", "Grid"),
            ("path", "Path"),
            ("boundary_path", "Rows"),
        ];
        over(table(), &own)
    }

    pub fn minkowski() -> Vec<Module> {
        over(over(table(), &pair()), &[("minkowski", "Pairs")])
    }
}
