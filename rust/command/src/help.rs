//! The subcommands and their help: one text a subcommand, from which the manual and the completion are also made.

/// The help of the command as a whole.
pub const OVERVIEW: &str = include_str!("../help/cindrolf.txt");

/// The names, each with its help.
macro_rules! subcommands {
    ($($name:literal)*) => {
        &[$(($name, include_str!(concat!("../help/", $name, ".txt")))),*]
    };
}

/// In the order of the overview.
const SUBCOMMANDS: &[(&str, &str)] = subcommands![
    "session" "total" "trace"
    "create" "step" "write" "plan" "forecast"
    "show" "watch" "chain" "steps" "window" "advise" "mark" "grant" "revoke" "check" "copy"
    "archive" "restore" "upgrade"
    "schema" "audit" "settle"
];

/// The help of a subcommand.
pub fn of(name: &str) -> Option<&'static str> {
    SUBCOMMANDS.iter().find(|(known, _)| *known == name).map(|&(_, help)| help)
}

/// Its first lines: what it takes.
pub fn usage(help: &str) -> &str {
    help.split("\n\n").next().unwrap_or_default()
}

/// Whether what a subcommand takes first is called LOG there.
pub fn names_a_log(name: &str) -> bool {
    of(name).is_some_and(|help| usage(help).contains(" LOG"))
}

/// The subcommand whose name is closest to this one, by how many letters differ.
pub fn closest(name: &str) -> &'static str {
    let names = SUBCOMMANDS.iter().map(|&(known, _)| known);
    names.min_by_key(|known| distance(name, known)).unwrap_or_default()
}

/// How many letters have to be put in, left out or changed to come from one word to the other.
fn distance(from: &str, to: &str) -> usize {
    let mut row: Vec<usize> = (0..=to.chars().count()).collect();
    for (place, letter) in from.chars().enumerate() {
        let mut corner = std::mem::replace(&mut row[0], place + 1);
        for (at, other) in to.chars().enumerate() {
            let changed = corner + usize::from(letter != other);
            corner = row[at + 1];
            row[at + 1] = changed.min(corner + 1).min(row[at] + 1);
        }
    }
    row[row.len() - 1]
}

#[cfg(test)]
mod tests {
    use super::*;
    use cindrolf::Kind;

    // In two lines, each step with its letter, two spaces or more apart.
    #[test]
    fn the_steps_are_the_kinds() {
        let mut found = 0;
        for (name, help) in SUBCOMMANDS {
            let lines = help.lines().skip_while(|line| !line.starts_with("    N ")).take(2);
            let steps: Vec<_> = lines.flat_map(|line| line.split("  ")).map(str::trim).collect();
            let steps: Vec<_> = steps.into_iter().filter(|step| !step.is_empty()).collect();
            if !steps.is_empty() {
                assert_eq!(steps, Kind::ALL.map(|kind| format!("{} {kind}", kind.letter())), "{name}");
                found += 1;
            }
        }
        assert_eq!(found, 4);
    }

    #[test]
    fn distances() {
        for (from, to, letters) in [
            ("", "", 0),
            ("", "show", 4),
            ("show", "", 4),
            ("kitten", "sitting", 3),
            ("chekc", "check", 2),
            ("ä", "a", 1),
        ] {
            assert_eq!(distance(from, to), letters, "{from} {to}");
        }
    }

    #[test]
    fn closest_names() {
        for (name, known) in
            [("sesion", "session"), ("totals", "total"), ("stpe", "step"), ("mrak", "mark"), ("Show", "show")]
        {
            assert_eq!(closest(name), known);
        }
    }
}
