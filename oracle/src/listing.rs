//! A plan by the Rust in the lines that the plan program prints.

use crate::catalog::Catalog;
use crate::groups;
use crate::list::List;
use crate::plan::{Member, Step};
use crate::planner::reach;

/// The counts of reads and packets, then group by group the reads, each with its tags. The groups are those of the list's
/// budget.
pub fn lines(catalog: &[u8], list: &[u8]) -> Result<Vec<String>, String> {
    let (catalog, list) = (Catalog::read(catalog)?.to_rust(), List::read(list)?);
    let reads = reach::plan(&list, &catalog);
    let (groups, packets) = groups::of_reads(&reads, &catalog, list.budget);
    let mut lines = vec![format!("plan {} reads {packets} packets", reads.len())];
    for (number, group) in groups.iter().enumerate() {
        lines.push(format!("group {}", number + 1));
        for read in group.iter().map(|position| &reads[*position]) {
            lines.push(format!("read {}", read.name));
            lines.extend(read.members.iter().map(member));
        }
    }
    Ok(lines)
}

fn member((tag, path): &Member) -> String {
    let key = |step: &Step| match step {
        Step::Member(name) => format!(".{name}"),
        Step::Index(i) | Step::First(i) => format!("[{i}]"),
    };
    match path {
        None => format!("tag {tag}"),
        Some(path) => format!("tag {tag} path {}", path.iter().map(key).collect::<String>()),
    }
}
