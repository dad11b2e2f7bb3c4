use torkettle::{from_ascii, from_ascii_prefix};

fn main() {
    println!("{:?}", from_ascii::<u16>(b"8080"));
    println!("{}", from_ascii::<u8>(b"256").unwrap_err());
    println!("{:?}", from_ascii_prefix::<i32>(b"-0042,7"));
}
