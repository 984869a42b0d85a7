use maftehon::{Image, RouteList, Stride};
use std::error::Error;
use std::net::Ipv4Addr;

fn main() -> Result<(), Box<dyn Error>> {
    let file = std::fs::read("examples/floor.routes")?;
    let list = RouteList::read(&file)?;
    let image = Image::build(&list, Stride::Four);
    let found = image.lookup(Ipv4Addr::new(10, 1, 2, 3));
    assert_eq!(found.port, Some(7));
    Ok(())
}
