//! The table that is printed, as text or as markdown.

use bench::Sizes;

pub struct Table {
    pub markdown: bool,
}

impl Table {
    pub fn head(&self) {
        let times = ["plain ns", "careful ns", "library ns"];
        let ratios = ["to plain", "to careful"];
        self.line(["Q, b, K", "traffic", "way", "slots"], times, ratios);
        if self.markdown {
            println!("|---|---|---|--:|--:|--:|--:|--:|--:|");
        }
    }

    /// A way over one list: the times of plain and of careful natural Rust and of the library, of all slots in ns.
    pub fn row(&self, sizes: Sizes, traffic: &str, way: &str, slots: usize, times: [f64; 3]) {
        let name = format!("{}, {}, {}", sizes.queues, sizes.block, sizes.depth);
        let [plain, careful, library] = times;
        let per_slot = times.map(|time| figure(time / slots as f64));
        let ratios = [plain, careful].map(|natural| figure(library / natural));
        self.line(
            [&name, traffic, way, &slots.to_string()],
            per_slot.each_ref().map(String::as_str),
            ratios.each_ref().map(String::as_str),
        );
    }

    fn line(&self, list: [&str; 4], times: [&str; 3], ratios: [&str; 2]) {
        if self.markdown {
            println!("| {} |", [&list[..], &times[..], &ratios[..]].concat().join(" | "));
            return;
        }
        let [sizes, traffic, way, slots] = list;
        print!("{sizes:<10} {traffic:<12} {way:<26} {slots:>8}");
        for number in times.iter().chain(&ratios) {
            print!(" {number:>10}");
        }
        println!();
    }
}

/// A number with about three digits that count.
fn figure(number: f64) -> String {
    let digits = (2.0 - number.log10().floor()).clamp(0.0, 6.0) as usize;
    format!("{number:.digits$}")
}
