//! A host over a simulated wire: it finds the pods, attaches to each, flashes and resets it, and checks what they hold.

mod wire;

use std::convert::Infallible;

use fahireky::{Client, Link, Outcome, RunError};
use wire::Wire;

/// The simulated wire cannot fail; a serial port would have its own error here.
type Error = RunError<Infallible>;

fn main() -> Result<(), Error> {
    let mut wire = Wire::new(&[[0x11, 0x22, 0x33, 0x44], [0x11, 0x22, 0x33, 0x45], [0xF0, 0, 0, 1]]);
    let image: Vec<u8> = (0..1002u32).map(|i| (i * 7 + i / 256) as u8).collect();

    let mut client = Client::new();
    let mut link = Link::new(|request: &[u8]| Ok(wire.exchange(request)));
    client.start_discover(&[])?;
    let Outcome::Found(ids) = client.run(&[], &mut link, |_, _| {})? else { panic!("these pods have ids") };
    for id in &ids {
        client.start_attach(Some(id.bytes()))?;
        client.run(&[], &mut link, |_, _| {})?;
        client.start_flash(&image)?;
        client.run(&image, &mut link, |_, _| {})?;
        client.start_reset(false, false)?;
        client.run(&[], &mut link, |_, _| {})?;
        println!("{id}: flashed, and reset");
    }

    assert_eq!(ids.len(), wire.pods.len());
    assert!(wire.pods.iter().all(|pod| pod.flash[..image.len()] == image));
    println!("{} pods hold the image", ids.len());
    Ok(())
}
