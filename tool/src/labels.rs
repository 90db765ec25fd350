//! The names of labels, as a text declares them.

/// Names, each with its label.
#[derive(Clone, Default, PartialEq, Eq, Debug)]
pub struct Labels(pub Vec<(String, i64)>);

impl Labels {
    /// A label's name, or its number.
    pub fn shown(&self, label: i64) -> String {
        let name = self.0.iter().find(|(_, other)| *other == label).map(|(name, _)| name.clone());
        name.unwrap_or_else(|| label.to_string())
    }

    /// These names, and those of others where neither the name nor the label has been given.
    pub fn with(&self, others: &Labels) -> Labels {
        let mut labels = self.clone();
        for (name, label) in &others.0 {
            if !labels.0.iter().any(|(known, of)| known == name || of == label) {
                labels.0.push((name.clone(), *label));
            }
        }
        labels
    }

    /// The declarations, a line each.
    pub fn declared(&self) -> Vec<String> {
        self.0.iter().map(|(name, label)| format!("label {name} = {label}")).collect()
    }
}
