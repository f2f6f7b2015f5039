//! What an implementation tells, in a form that doesn't depend on which one.

/// An answer: its number, input and place, then whatever comes with them.
pub trait Told {
    fn told(&self) -> Vec<u64>;
}

macro_rules! told_by {
    ($side:ident) => {
        impl Told for $side::Answer {
            fn told(&self) -> Vec<u64> {
                [self.number, self.input, self.place].map(u64::from).into()
            }
        }

        impl Told for $side::Checked {
            fn told(&self) -> Vec<u64> {
                let mut told = self.answer.told();
                for row in &self.rows {
                    told.extend([row.code, row.start, row.size, row.depth].map(u64::from));
                    told.extend([row.count, row.name_place, row.name_length].map(u64::from));
                }
                told
            }
        }

        impl Told for $side::Compared {
            fn told(&self) -> Vec<u64> {
                [self.answer.told(), vec![u64::from(self.equal)]].concat()
            }
        }

        impl Told for $side::Part {
            fn told(&self) -> Vec<u64> {
                let part = [self.start, self.length].map(|number| number as u64);
                [self.answer.told(), part.to_vec()].concat()
            }
        }

        impl Told for $side::Difference {
            fn told(&self) -> Vec<u64> {
                let difference = vec![self.seconds as u64, self.fraction];
                [self.answer.told(), difference].concat()
            }
        }

        impl Told for $side::Value {
            fn told(&self) -> Vec<u64> {
                let value = vec![u64::from(self.kind), self.bits];
                [self.answer.told(), value].concat()
            }
        }
    };
}

told_by!(kerbcanopy);
told_by!(reference);
