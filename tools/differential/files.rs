// The cases of a file of tools/patterns, and drawn changes of them.
use crate::case::Case;
use crate::draw::Draw;
use crate::ours::least_lists;
use crate::patterns::{packed, Pattern};
use crate::small::Give;

fn numbers(text: &str) -> Vec<i32> {
    text.split_whitespace().map(|x| x.parse().unwrap()).collect()
}

// lines as tools/oracle/main.rs reads them
pub fn cases(path: &str) -> Vec<Case> {
    let text = std::fs::read_to_string(path).unwrap_or_else(|e| {
        println!("{}: {}", path, e);
        std::process::exit(2)
    });
    let case = |line: &str| {
        let parts: Vec<&str> = line.split('|').collect();
        let head: Vec<&str> = parts[0].split_whitespace().collect();
        let pattern = Pattern { pointers: numbers(parts[1]), rows: numbers(parts[2]) };
        Case { lists: head[0].parse().unwrap(), ..Case::new(pattern, head[1].parse().unwrap(), head[2] == "1") }
    };
    text.lines().filter(|l| !l.is_empty() && !l.starts_with('#')).map(case).collect()
}

// each also with two cells more, and in twice the room
pub fn as_they_are(known: &[Case], give: Give) {
    for case in known {
        for lists in [case.lists, case.lists + 2, 2 * case.lists] {
            give(Case { lists, ..case.clone() });
        }
    }
}

// one to three entries moved to the other triangle, put in or taken out; the room as far from the least as it was, or one off
pub fn nearby(known: &[Case], draw: &mut Draw, give: Give) {
    for case in known {
        let n = case.n as usize;
        let above = case.lists - least_lists(n, case.rows.len());
        for _ in 0..4_000 {
            let mut columns: Vec<Vec<i32>> = case.pointers.windows(2).map(|w| case.rows[w[0] as usize..w[1] as usize].to_vec()).collect();
            for _ in 0..draw.between(1, 3) {
                // an entry is taken out of column j, and half of them go to the other triangle
                let j = draw.between(0, n - 1);
                let i = if columns[j].is_empty() || draw.one_in(3) {
                    draw.between(0, n - 1)
                } else {
                    let at = draw.between(0, columns[j].len() - 1);
                    columns[j].remove(at) as usize
                };
                if i != j && draw.one_in(2) && !columns[i].contains(&(j as i32)) {
                    columns[i].push(j as i32);
                    columns[i].sort();
                }
            }
            let pattern = packed(&columns);
            let aggressive = draw.one_in(2);
            give(Case::new(pattern, case.multiplier, aggressive).roomier((above + draw.between(0, 2)).saturating_sub(1), 0));
        }
    }
}
