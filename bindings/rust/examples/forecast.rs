//! A booth of six panels from Rust: what its query will cost, memory for just that, and the query. Prints what bindings/c/forecast.c prints.
use bivelondry::{query_cost, trace_early_reflections, Material, Mesh, Refusal, Scene, Settings, Workspace};

fn main() -> Result<(), Refusal> {
    let mut scene = Scene::default();
    let panel = scene.add_material(&Material { absorption: [0.5; 8], transmission: [0.0; 8] });
    // a box of 4 by 3 by 5 m: eight corners, two triangles a side
    let low = [[0.0, 0.0, 0.0], [4.0, 0.0, 0.0], [4.0, 3.0, 0.0], [0.0, 3.0, 0.0]];
    let positions: Vec<[f32; 3]> = low.into_iter().chain(low.map(|[x, y, _]| [x, y, 5.0])).collect();
    let indices = [0, 1, 2, 0, 2, 3, 4, 6, 5, 4, 7, 6, 0, 4, 5, 0, 5, 1, 3, 2, 6, 3, 6, 7, 0, 3, 7, 0, 7, 4, 1, 5, 6, 1, 6, 2];
    scene.add_mesh(&Mesh { positions: &positions, indices: &indices, material: panel, ..Mesh::default() });
    let settings = Settings::default();
    let cost = query_cost(settings.crossing_limit, 6, 6, settings.max_reflection_order, scene.triples() as u32)?;
    let mut workspace = Workspace::with_triples(cost.candidates, scene.triples());
    print!("images of each order");
    cost.counts.iter().for_each(|n| print!(" {n}"));
    println!("\ncandidates {}, rays {}, words {} at most", cost.candidates, cost.rays, cost.words);
    let packet = trace_early_reflections(&settings, &scene, [1.0, 1.0, 1.0], [3.0, 1.0, 4.0], false, &mut workspace)?;
    println!("taps {}, images {}, rays {}", packet.taps.len(), packet.images, packet.rays);
    Ok(())
}
