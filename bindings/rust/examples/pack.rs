//! Checks a module and packs a value of its `struct { u32, vec4<f32> }` into a buffer, each part where the shader reads
//! it.

use naga_check::{
    check_words, leaves, Options, Scalar, StructMember, TypeInner, VectorSize, Words,
};
use std::error::Error;

fn main() -> Result<(), Box<dyn Error>> {
    let mut words = Words::new();
    let number = words.add_type(TypeInner::Scalar(Scalar::U32));
    let vector = words.add_type(TypeInner::Vector {
        size: VectorSize::Quad,
        scalar: Scalar::F32,
    });
    let members = vec![StructMember::at(0, number), StructMember::at(16, vector)];
    let pair = words.add_type(TypeInner::Struct { members, span: 32 });
    let words = words.finish()?;

    let options = Options::new();
    let infos = check_words(&words, &options)?;
    let mut buffer = vec![0; infos[pair.index() as usize].size as usize];
    let vector = [1.0f32, 2.0, 3.0, 4.0].map(f32::to_le_bytes).concat();
    for leaf in leaves(&words, &options, &[pair], 0)?.iter() {
        let value = match leaf.path {
            [0] => &7u32.to_le_bytes()[..],
            _ => &vector[..],
        };
        buffer[leaf.first as usize..][..value.len()].copy_from_slice(value);
    }
    for line in buffer.chunks(16) {
        let bytes: Vec<String> = line.iter().map(|byte| format!("{byte:02x}")).collect();
        println!("{}", bytes.join(" "));
    }
    Ok(())
}
