//! What was not measured, and why.

use crate::task::Way;

/// Names of images, by way and reason, in the order in which they came up.
#[derive(Default)]
pub struct LeftOut(Vec<(Way, String, Vec<String>)>);

impl LeftOut {
    pub fn add(&mut self, name: &str, way: Way, why: String) {
        let same = |group: &&mut (Way, String, Vec<String>)| group.0 == way && group.1 == why;
        match self.0.iter_mut().find(same) {
            Some(group) => group.2.push(name.into()),
            None => self.0.push((way, why, vec![name.into()])),
        }
    }

    /// A line for each way and reason; nothing where nothing was left out.
    pub fn text(&self) -> String {
        let mut text = String::new();
        for (way, why, names) in &self.0 {
            let names = names.join(", ");
            text += &format!("\nLeft out, {} ({why}): {names}\n", way.name());
        }
        text
    }
}

#[cfg(test)]
mod tests {
    use super::LeftOut;
    use crate::task::Way;

    #[test]
    fn by_way_and_reason() {
        let mut left = LeftOut::default();
        assert_eq!(left.text(), "");
        left.add("a", Way::Read, "refused 2".into());
        left.add("a", Way::Steps, "refused 2".into());
        left.add("b", Way::Read, "refused 2".into());
        let text =
            "\nLeft out, read (refused 2): a, b\n\nLeft out, walk and fills (refused 2): a\n";
        assert_eq!(left.text(), text);
    }
}
