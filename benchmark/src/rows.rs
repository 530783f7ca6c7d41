//! Rows of the tables chosen by name, one line of fields each: what `before-after` lays side by side.

/// Best times in milliseconds. A kernel has no plain version beside it.
pub struct Best {
    pub ours: f64,
    pub plain: Option<f64>,
    pub pass: f64,
}

/// A row that is measured when it is asked for.
pub struct Named<'a> {
    pub name: String,
    pub measure: Box<dyn Fn() -> Result<Best, String> + 'a>,
}

impl<'a> Named<'a> {
    pub fn new(table: &str, row: &str, measure: impl Fn() -> Result<Best, String> + 'a) -> Named<'a> {
        Named { name: format!("{table} {row}"), measure: Box::new(measure) }
    }

    /// Every word of the name stands in this one: "erode 1" means "kernel erode, r = 1" and "render erode 1".
    fn is_meant(&self, name: &str) -> bool {
        words(name).all(|word| words(&self.name).any(|own| own == word))
    }
}

fn words(name: &str) -> impl Iterator<Item = &str> {
    name.split(|c: char| !c.is_alphanumeric() && c != '.').filter(|word| !word.is_empty())
}

/// The rows that are meant by one of the names, all where there is none; a name that means no row is an error.
fn chosen<'a, 'b>(rows: &'a [Named<'b>], names: &[String]) -> Result<Vec<&'a Named<'b>>, String> {
    match names.iter().find(|name| !rows.iter().any(|row| row.is_meant(name))) {
        Some(name) => Err(format!("no row has every word of '{name}'")),
        None => Ok(rows.iter().filter(|row| names.is_empty() || names.iter().any(|name| row.is_meant(name))).collect()),
    }
}

/// Name, ours, the plain version or nothing, a memory pass; parted by tabs.
pub fn print(rows: &[Named], names: &[String]) -> Result<(), String> {
    for row in chosen(rows, names)? {
        let Best { ours, plain, pass } = (row.measure)().map_err(|error| format!("{}: {error}", row.name))?;
        let plain = plain.map_or(String::new(), |plain| format!("{plain:.6}"));
        println!("{}\t{ours:.6}\t{plain}\t{pass:.6}", row.name);
    }
    Ok(())
}

#[cfg(test)]
mod tests {
    use super::{chosen, Named};

    #[test]
    fn a_row_is_chosen_by_its_words() {
        let all = [("kernel", "erode, r = 1"), ("render", "erode 1"), ("render", "blur 1.5"), ("redraw", "matrix")];
        let rows = all.map(|(table, row)| Named::new(table, row, || Err("not measured".into())));
        let names = |wanted: &[&str]| {
            let wanted: Vec<String> = wanted.iter().map(|name| name.to_string()).collect();
            chosen(&rows, &wanted).map(|rows| rows.iter().map(|row| row.name.as_str()).collect::<Vec<_>>())
        };
        assert_eq!(names(&["erode 1"]).unwrap(), ["kernel erode, r = 1", "render erode 1"]);
        assert_eq!(names(&["matrix", "render 1.5"]).unwrap(), ["render blur 1.5", "redraw matrix"]);
        assert_eq!(names(&[]).unwrap().len(), 4);
        assert!(names(&["matrix", "erode 8"]).is_err());
    }
}
