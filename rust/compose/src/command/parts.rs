//! Which file of those that a call was handed is refused, and what a scene's claps take.

use super::options::PREMULTIPLIED;
use super::properties::taken;
use compose::props::Property;
use compose::{
    About, GridDescriptor, OverlayDescriptor, Refusal, Result as Answer, Scene, chain, tray,
};

/// A width and a height.
pub type Size = (u32, u32);

/// The files of a scene.
pub struct Files {
    pub body: String,
    pub tray: String,
    /// None where there is no chain.
    pub chain: Option<String>,
}

impl Files {
    /// The file that a refusal is of, or the option; none where it is the place that is asked about, or
    /// a ceiling. One of no item is that of the first file that gives it, in document 01's order.
    pub fn refused(&self, scene: &Scene, refusal: Refusal) -> Option<&str> {
        let (body, tray, chain) = (&*self.body, &*self.tray, self.chain.as_deref());
        match refusal.about() {
            Some(About::Record) => return Some(tray),
            Some(About::Entry) => return chain,
            None => {}
        }
        let no_count = tray::announced(scene.tray).is_none();
        let counted = match scene.marks {
            Some(_) => PREMULTIPLIED.name,
            None => tray,
        };
        let judged = [
            (Some(tray), no_count.then_some(Refusal::MALFORMED)),
            (chain, chain::count(scene.chain).err()),
            (Some(body), canvas(scene).err()),
            (Some(tray), Some(Refusal::MISSING)),
            (Some(counted), Some(Refusal::COUNT)),
            (Some(tray), tray::count(scene.tray).err()),
            (Some(tray), Some(Refusal::COVER)),
        ];
        let of = judged.iter().find(|(_, one)| *one == Some(refusal));
        of.and_then(|(part, _)| *part)
    }

    /// What each clap that a scene applies takes of the picture before it, a line each.
    pub fn taken(&self, scene: &Scene) -> String {
        let mut text = String::new();
        let (Some(file), Ok(mut size), Ok(entries)) =
            (&self.chain, canvas(scene), chain::entries(scene.chain))
        else {
            return text;
        };
        for (index, entry) in entries.iter().enumerate() {
            if scene.essential_only && !entry.essential {
                continue;
            }
            if let Property::Clap(clap) = entry.property
                && let Ok(crop) = clap.resolve(size.0, size.1)
            {
                text += &format!("{file}, entry {index}: {}\n", taken(&crop, size));
            }
            // A scene that was composed has no refused entry.
            size = size_after(&entry.property, size).unwrap_or(size);
        }
        text
    }
}

/// The size of a scene's canvas. Refusals: the body's.
fn canvas(scene: &Scene) -> Answer<Size> {
    let count = tray::announced(scene.tray).unwrap_or(0) as usize;
    match scene.marks {
        None => {
            GridDescriptor::parse(scene.body).map(|grid| (grid.output_width, grid.output_height))
        }
        Some(_) => OverlayDescriptor::parse(scene.body, count)
            .map(|overlay| (overlay.output_width, overlay.output_height)),
    }
}

/// The size that a property leaves of a picture.
pub fn size_after(property: &Property, (width, height): Size) -> Answer<Size> {
    match property {
        Property::Clap(clap) => {
            let part = clap.resolve(width, height)?.rect;
            Ok((part.width, part.height))
        }
        Property::Irot(irot) if irot.angle % 2 == 1 => Ok((height, width)),
        Property::Iscl(iscl) => iscl.output_size(width, height),
        _ => Ok((width, height)),
    }
}
