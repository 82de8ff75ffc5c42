//! The echoes of case A, from Rust: prints what bindings/c/case_a.c prints.
use bivelondry::{trace_packet, Material, Mesh, Packet, Refusal, Scene, Settings, Workspace};

fn main() -> Result<(), Refusal> {
    let mut scene = Scene::default();
    let floor = scene.add_material(&Material { absorption: [0.75; 8], transmission: [0.0; 8] });
    let positions = [[-4.0, 0.0, -4.0], [4.0, 0.0, -4.0], [4.0, 0.0, 4.0], [-4.0, 0.0, 4.0]];
    scene.add_mesh(&Mesh { positions: &positions, indices: &[0, 1, 2, 0, 2, 3], material: floor, ..Mesh::default() });
    let settings = Settings { temperature_celsius: 20.0, ..Settings::default() };
    let mut workspace = Workspace::new(1);
    let bytes = trace_packet(&settings, &scene, [0.0, 2.0, 0.0], [3.0, 2.0, 0.0], false, &mut workspace)?;
    let packet = Packet::read(bytes)?;
    println!("taps {}, images {}, rays {}, packet {} bytes", packet.taps.len(), packet.images, packet.rays, bytes.len());
    println!("order  number  delay in samples  direction                gain at 62.5 Hz .. 8 kHz");
    for t in &packet.taps {
        let [x, y, z] = t.direction;
        print!("{:5}  {:6}  {:16.3}  ({x:6.3}, {y:6.3}, {z:6.3}) ", t.order, t.number, t.delay_samples);
        t.gains.iter().for_each(|g| print!(" {g:.4}"));
        println!();
    }
    Ok(())
}
