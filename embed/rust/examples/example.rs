use revroute::{Network, Refused};

fn main() -> Result<(), Refused> {
    let mut network = Network::new(5, 0, &[(1, 0), (2, 0), (3, 1), (3, 2), (4, 3)])?;
    println!("{:?}", network.walk(4).collect::<Vec<_>>()); // [4, 3, 1, 0]
    println!("{:?}", network.cut(1, 0)?); // Report { turned: 1, cut_off: 0 }
    println!("{:?}", network.changed()?); // [(3, To(2)), (1, To(3))]
    println!("{:?}", network.walk(4).collect::<Vec<_>>()); // [4, 3, 2, 0]
    Ok(())
}
