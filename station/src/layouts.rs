//! `dimpstea layouts`: the fifteen layouts.
use crate::{cli, error::Error, output, tables};
use clap::Args;
use dimpstea::Layout;

/// The words of `layouts`.
#[derive(Args, Debug)]
pub struct Words {
    /// Prints the program's own tables of a layout instead, in the form that --tables reads
    #[arg(long, value_name = "LAYOUT", value_parser = cli::layout)]
    tables: Option<Layout>,
    /// The seed that the marks of --tables are drawn from, below 2^24
    #[arg(long, default_value_t = tables::SEED, value_name = "SEED", requires = "tables")]
    marker_seed: u32,
}

/// Prints them.
pub fn run(words: &Words) -> Result<(), Error> {
    if let Some(layout) = &words.tables {
        return output::line(&tables::own_text(layout, words.marker_seed)?);
    }
    output::line("layout   payload bits  frame s  bits/s  carriers in Hz")?;
    for (bandwidth, record) in Layout::ALL {
        let layout = Layout::choose(bandwidth, record)
            .map_err(|refusal| Error::refused("layout", refusal, "build the library again"))?;
        output::line(&row(&layout))?;
    }
    Ok(())
}

/// A layout's line. A frame's seconds are those of its nsym symbols, 32 samples each.
fn row(layout: &Layout) -> String {
    let name = format!("{}/{}", layout.bandwidth, layout.record);
    let seconds = 32.0 * layout.nsym as f64 / 3000.0;
    let carriers: Vec<String> = (0..layout.carriers).map(|c| layout.carrier_hz(c).to_string()).collect();
    let rate = layout.payload as f64 / seconds;
    format!("{name:<8} {:>12} {seconds:>8.3} {rate:>7.1}  {}", layout.payload, carriers.join(" "))
}
