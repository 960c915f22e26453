// Stands for the crate's conversion from parsed syntax, which printing does not use.
